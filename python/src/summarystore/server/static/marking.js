// Opens or closes a landmark, after asking.

import { tell } from "./api.js";
import { confirmed } from "./dialog.js";
import { partsOf } from "./list.js";

const TEXTS = {
  open: "From now on each value is kept one by one, and never fades, until you end the landmark. This can't be undone.",
  close: "What came since it began stays as it is, value by value. Later readings fade into windows again.",
};

/** Tells the service. Whether a landmark is open may not be known before it says so: then `learn` is told. */
async function told(name, action, learn) {
  try {
    await tell("api/landmark", { stream: name, action });
  } catch (error) {
    if (/^landmark_(not_)?open$/.test(error.code)) learn(error.code === "landmark_open");
    throw error;
  }
}

/** Asks, and marks a stream from now, or ends its landmark. Answers whether that was done. */
export function marked({ name, open_landmark: isOpen }, learn) {
  const { last } = partsOf(name);
  const action = isOpen ? "close" : "open";
  return confirmed({
    title: isOpen ? `End the landmark on ${last}?` : `Mark ${last} from now?`, text: TEXTS[action],
    yes: isOpen ? "End it" : "Mark it", act: () => told(name, action, learn),
  });
}
