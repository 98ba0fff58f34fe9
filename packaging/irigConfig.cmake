# Finds the folder of the processor that the project compiles for, by what its compiler defines for
# CMAKE_C_FLAGS, or without C those of C++. Where that says too little, -DIRIG_TARGET=.. names the folder.
set(_irig_language C)
if(NOT CMAKE_C_COMPILER)
    set(_irig_language CXX)
endif()
set(_irig_compiler "${CMAKE_${_irig_language}_COMPILER}")
if(NOT IRIG_TARGET)
    separate_arguments(_irig_words NATIVE_COMMAND "${CMAKE_${_irig_language}_FLAGS}")
    if(CMAKE_${_irig_language}_COMPILER_TARGET)
        list(APPEND _irig_words "--target=${CMAKE_${_irig_language}_COMPILER_TARGET}")
    endif()
    execute_process(
        COMMAND "${_irig_compiler}" ${_irig_words} -x c -dM -E
            "${CMAKE_CURRENT_LIST_DIR}/x86_64-linux-gnu/include/irig.h"
        OUTPUT_VARIABLE _irig_defined ERROR_QUIET)
    foreach(_irig_known
            "x86_64-linux-gnu __x86_64__ __linux__"
            "aarch64-linux-gnu __aarch64__ __linux__"
            "armv7-linux-gnueabihf __ARM_ARCH_7A__ __linux__ __ARM_PCS_VFP"
            "armv7r __ARM_ARCH_7R__"
            "thumbv6m __ARM_ARCH_6M__"
            "thumbv7m __ARM_ARCH_7M__"
            "thumbv7em __ARM_ARCH_7EM__"
            "thumbv8m.main __ARM_ARCH_8M_MAIN__"
            "riscv32 __riscv_xlen.32 __riscv_float_abi_soft")
        string(REPLACE " " ";" _irig_macros "${_irig_known}")
        list(GET _irig_macros 0 _irig_target)
        list(REMOVE_AT _irig_macros 0)
        foreach(_irig_macro ${_irig_macros})
            if(NOT _irig_defined MATCHES "#define ${_irig_macro}[ \n]")
                set(_irig_target)
            endif()
        endforeach()
        if(_irig_target)
            set(IRIG_TARGET "${_irig_target}")
        endif()
    endforeach()
endif()
if(EXISTS "${CMAKE_CURRENT_LIST_DIR}/${IRIG_TARGET}/lib/cmake/irig/irigConfig.cmake")
    include("${CMAKE_CURRENT_LIST_DIR}/${IRIG_TARGET}/lib/cmake/irig/irigConfig.cmake")
else()
    set(irig_FOUND FALSE)
    string(CONCAT irig_NOT_FOUND_MESSAGE "no library for what ${_irig_compiler} compiles for:"
        " set IRIG_TARGET to a folder of ${CMAKE_CURRENT_LIST_DIR}")
endif()
