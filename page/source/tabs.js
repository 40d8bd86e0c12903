// The three views of the right side, as tabs.

/** The tabs. `onShow` is called with the panel that is shown. */
export class Tabs {
  constructor(list, onShow) {
    this.tabs = [...list.querySelectorAll("[role=tab]")];
    this.onShow = onShow;
    for (const tab of this.tabs) tab.addEventListener("click", () => this.choose(tab));
    list.addEventListener("keydown", (event) => this.onKey(event));
  }

  panelOf(tab) {
    return document.getElementById(tab.getAttribute("aria-controls"));
  }

  choose(chosen) {
    for (const tab of this.tabs) {
      tab.setAttribute("aria-selected", String(tab === chosen));
      tab.tabIndex = tab === chosen ? 0 : -1;
      this.panelOf(tab).hidden = tab !== chosen;
    }
    this.onShow(this.panelOf(chosen));
  }

  /** Chooses the tab of a panel. */
  show(id) {
    this.choose(this.tabs.find((tab) => tab.getAttribute("aria-controls") === id));
  }

  onKey(event) {
    const by = { ArrowRight: 1, ArrowLeft: -1 }[event.key];
    if (!by) return;
    event.preventDefault();
    const at = this.tabs.indexOf(document.activeElement);
    const next = this.tabs.at((at + by) % this.tabs.length);
    next.focus();
    this.choose(next);
  }
}
