/** Tabs: what is shown in the middle of the page. */

import { byId, html } from "./elements.js";

const STEPS = { ArrowLeft: -1, ArrowRight: 1 };

/** Makes tabs of these names and gives their panels. `shown` is called after each change of what is in front. */
export function makeTabs(names, shown) {
  const panels = names.map((name) => html("section", { role: "tabpanel", id: `panel-${name}`, "aria-labelledby": `tab-${name}` }));
  const choose = (chosen) => {
    tabs.forEach((tab, at) => {
      tab.setAttribute("aria-selected", at === chosen);
      tab.setAttribute("tabindex", at === chosen ? "0" : "-1");
      panels[at].hidden = at !== chosen;
    });
    shown();
  };
  const key = (event, at) => {
    if (event.key in STEPS) {
      const next = (at + STEPS[event.key] + tabs.length) % tabs.length;
      choose(next);
      tabs[next].focus();
    }
  };
  const tabs = names.map((name, at) => html("button", {
    type: "button", role: "tab", id: `tab-${name}`, "aria-controls": `panel-${name}`,
    click: () => choose(at), keydown: (event) => key(event, at),
  }, name));
  byId("tabs").append(...tabs);
  byId("panels").append(...panels);
  choose(0);
  return panels;
}
