# A Cortex-M4, or what -DPROCESSOR=cortex-m0 names, by GNU's compiler with newlib.
set(CMAKE_SYSTEM_NAME Generic)
set(CMAKE_SYSTEM_PROCESSOR arm)
set(CMAKE_C_COMPILER arm-none-eabi-gcc)
set(CMAKE_TRY_COMPILE_TARGET_TYPE STATIC_LIBRARY)
if(NOT PROCESSOR)
    set(PROCESSOR cortex-m4)
endif()
set(CMAKE_C_FLAGS_INIT "-mcpu=${PROCESSOR} -mthumb --specs=rdimon.specs")
set(CMAKE_EXE_LINKER_FLAGS_INIT
    "-T ${CMAKE_CURRENT_LIST_DIR}/cortex_m.ld -Wl,--gc-sections,-z,noexecstack,--no-warn-execstack")
if(PROCESSOR STREQUAL cortex-m33)
    # where QEMU's mps2-an505 has its memory
    string(APPEND CMAKE_EXE_LINKER_FLAGS_INIT " -Wl,--defsym=flash=0x10000000,--defsym=ram=0x80000000")
endif()
