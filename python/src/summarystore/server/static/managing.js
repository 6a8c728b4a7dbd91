// Renames or drops a stream, after asking: for who may do that.

import { ask, change, remove } from "./api.js";
import { confirmed } from "./dialog.js";
import { byId, say } from "./dom.js";
import { counted } from "./numbers.js";

const path = (name) => `api/streams/${name.split("/").map(encodeURIComponent).join("/")}`;
const RENAME = "What it holds stays. Readings that come under the old name make a new stream.";

/** The buttons about the stream that is looked at. `gone` is told when it has another name, or none (null). */
export class Managing {
  constructor({ stream, gone }) {
    Object.assign(this, { stream, gone });
    byId("rename").addEventListener("click", () => this.rename());
    byId("drop").addEventListener("click", () => this.drop());
    byId("dialog-field").addEventListener("keydown", (event) => this.pressed(event));
  }

  /** Asks what the token may do, and shows the buttons if it may. */
  async look() {
    const may = await ask("api/access").catch(() => ({ admin: false }));
    byId("manage").hidden = !may.admin;
  }

  /** Enter is a yes: else a form takes its first button, which is a no. */
  pressed(event) {
    if (event.key !== "Enter") return;
    event.preventDefault();
    byId("dialog-yes").click();
  }

  async rename() {
    const { name } = this.stream();
    const field = byId("dialog-field");
    field.value = name;
    say(byId("dialog-label"), "The new name");
    const done = await confirmed({
      title: `Rename ${name}?`, text: RENAME, yes: "Rename it", hasField: true,
      act: () => change(path(name), { rename: field.value.trim() }),
    });
    if (done) this.gone(field.value.trim());
  }

  async drop() {
    const { name, values } = this.stream();
    const done = await confirmed({
      title: `Drop ${name}?`, text: `All that it holds goes: ${counted(values ?? 0, "reading")}. It can't be brought back.`,
      yes: "Drop it", act: () => remove(path(name)),
    });
    if (done) this.gone(null);
  }
}
