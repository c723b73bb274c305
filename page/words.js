/* What the page says in words: document 01's names of sub types and answers, and the sentence that gives each. */

export const SUB_TYPES = {
  1: "mask", 2: "orbits", 3: "clocks", 4: "code biases", 5: "phase biases", 6: "combined biases", 7: "accuracy",
  10: "service", 11: "orbits and clocks, combined",
};

/* Document 01, "Answer numbers"; where document 02 changed one, that is said behind it. */
export const ANSWERS = {
  0: ["idle", "all remaining bits are zero, or none remain; no message"],
  1: ["room", "reader: row buffer under 2,048 numbers"],
  2: ["place", "bit length over 50,850 or over the bytes lent, or start past the end"],
  3: ["short", "the next field, or the whole body after the head, runs past the end"],
  4: ["number", "message number isn't 4073"],
  5: ["sub type", "not one of the seven (document 02, Ask 1: of the nine, with 6 and 7)"],
  6: ["no mask", "sub type 2, 3, 4, 5 or 11 and nothing held (document 02, Ask 1: 6 and 7, too)"],
  7: ["other issue", "sub type 2, 3, 4, 5 or 11 and the IOD SSR differs from the held one (document 02, Ask 1: 6 " +
    "and 7, too)"],
  8: ["system", "ID over 4, or one named already in this message"],
  9: ["reserved", "a satellite or signal place without assignment is set"],
  10: ["size", "over 64 satellites or 256 cells"],
  11: ["network", "sub type 11 with network ID 0 (document 02, Ask 1: 6, too; and a selection of 6 that names a " +
    "satellite without a cell)"],
  12: ["value", "a lent holding that is neither empty nor what a good mask message makes"],
  13: ["changed mask", "when all else in the mask message was good: another mask under the held IOD SSR (document " +
    "02, Ask 2)"],
};

/* What each colour of the band stands for. */
export const KINDS = {
  number: "message number, sub type", head: "head", issue: "IOD SSR", system: "GNSS ID", satellites: "satellite mask",
  signals: "signal mask", cells: "cell flag, cell mask", flag: "flags, network, selection", orbit: "orbit",
  clock: "clock", code: "code bias", phase: "phase bias", accuracy: "accuracy", service: "service data",
  body: "body that is short", idle: "idle padding", unread: "not read",
};

export const answerName = (answer) => `${answer}, ${ANSWERS[answer][0]}`;
