// ---- the page: its tabs, and how it begins

const TABS = ["run", "judge", "frame", "read", "about"];

function show_tab(name) {
  for (const each of TABS) {
    const is_shown = each === name, tab = part(`tab-${each}`);
    part(`panel-${each}`).hidden = !is_shown;
    tab.setAttribute("aria-selected", is_shown);
    tab.tabIndex = is_shown ? 0 : -1;
  }
}

function on_tab_key(event) { // arrows lead from tab to tab, as people who use keys expect
  const here = TABS.indexOf(event.currentTarget.id.slice("tab-".length)), count = TABS.length;
  const to = { ArrowRight: here + 1, ArrowLeft: here + count - 1, Home: 0, End: count - 1 }[event.key];
  if (to === undefined) return;
  event.preventDefault();
  show_tab(TABS[to % count]);
  part(`tab-${TABS[to % count]}`).focus();
}

for (const name of TABS) {
  part(`tab-${name}`).addEventListener("click", () => show_tab(name));
  part(`tab-${name}`).addEventListener("keydown", on_tab_key);
}
show_tab("run");

const modules = { runner: compiled("c_scenario"), codec: compiled("c_reader"), program: compiled("irig_main") };
const tab = new ScenarioTab(modules.runner), recording_tab = new RecordingTab(modules.program);
const ready = Promise.all([
  tab.take_link().then((is_taken) => is_taken || tab.run_example("leap_inserted")),
  Promise.all([modules.codec, modules.runner]).then(([module, runner]) => {
    const codec = new Codec(module), texts = new Texts(runner);
    start_frame(codec, texts);
    start_read(codec, texts);
    return [codec, texts];
  }),
]).catch((error) => { part("state").textContent = `this browser can't run the page: ${error.message}`; });
