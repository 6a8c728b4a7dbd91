// Asks before something is done that stays.

import { byId, say } from "./dom.js";

/**
 * Shows a question. Where it is answered by yes, `act` is done while the dialog stays; what goes wrong in it is said
 * there, and can be tried again. Answers whether it was done.
 */
export function confirmed({ title, text, yes, act, hasField = false }) {
  const dialog = byId("dialog");
  const wrong = byId("dialog-wrong");
  const button = byId("dialog-yes");
  say(byId("dialog-title"), title);
  say(byId("dialog-text"), text);
  say(button, yes);
  wrong.hidden = true;
  button.disabled = false;
  byId("dialog-entry").hidden = !hasField;
  byId("dialog-field").disabled = !hasField;
  dialog.returnValue = "";
  return new Promise((resolve) => {
    let done = false;
    const form = dialog.querySelector("form");
    const submitted = async (event) => {
      if (event.submitter !== button) return;
      event.preventDefault();
      button.disabled = true;
      try {
        await act();
        done = true;
        dialog.close("yes");
      } catch (error) {
        button.disabled = false;
        wrong.hidden = false;
        say(wrong, error.message);
      }
    };
    form.addEventListener("submit", submitted);
    dialog.addEventListener("close", () => {
      form.removeEventListener("submit", submitted);
      resolve(done);
    }, { once: true });
    dialog.showModal();
  });
}
