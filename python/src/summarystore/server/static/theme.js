// Sets light or dark before anything is drawn. A classic script, so that the page doesn't flash.
(() => {
  "use strict";
  const dark = matchMedia("(prefers-color-scheme: dark)");
  let chosen = null;
  const kept = () => {
    if (chosen) return chosen;
    try {
      return localStorage.getItem("summarystore.theme") || "system";
    } catch {
      return "system";
    }
  };
  const set = () => {
    const choice = kept();
    const shown = choice === "system" ? (dark.matches ? "dark" : "light") : choice;
    document.documentElement.dataset.theme = shown;
    document.documentElement.dataset.themeChoice = choice;
    document.dispatchEvent(new CustomEvent("theme", { detail: { choice, shown } }));
  };
  window.summarystoreTheme = {
    choose(choice) {
      chosen = choice;
      try {
        localStorage.setItem("summarystore.theme", choice);
      } catch {
        // A browser that keeps nothing: the choice holds for as long as the page does.
      }
      set();
    },
  };
  dark.addEventListener("change", set);
  set();
})();
