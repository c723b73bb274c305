"""The bench page for people who do not see colours, read it on paper, or have it read to them."""

from checks import check

CASES = ("habit-codes-first/accepted", "mistake-3-reading-on/refused", "13-changed-mask/refused",
         "10-size-satellites/refused")

# How much lighter one of two colours is than the other, as WCAG counts it: 4.5 and more can be read.
SEEN = """
const part = (value) => (value / 255 <= 0.04045 ? value / 255 / 12.92 : ((value / 255 + 0.055) / 1.055) ** 2.4);
const light = (colour) => {
  const [red, green, blue] = colour.match(/[0-9.]+/g).map(Number);
  return 0.2126 * part(red) + 0.7152 * part(green) + 0.0722 * part(blue);
};
return Array.from(document.querySelectorAll("#band .piece"), (piece) => {
  const { color, backgroundColor, backgroundImage, boxShadow } = getComputedStyle(piece);
  const ground = backgroundColor === "rgba(0, 0, 0, 0)" ? "rgb(255, 255, 255)" : backgroundColor;
  const [dark, bright] = [light(color), light(ground)].sort((a, b) => a - b);
  return { name: piece.dataset.name, contrast: (bright + 0.05) / (dark + 0.05), edge: boxShadow !== "none",
    hatched: backgroundImage.includes("gradient"), unread: piece.classList.contains("unread"),
    first: piece.classList.contains("first"), label: piece.getAttribute("aria-label"), hidden: piece.ariaHidden };
});
"""


def check_piece(piece, case):
    where = f"{case}, {piece['name']}"
    check(piece["contrast"] >= 4.5, f"{where}: its bits can hardly be read, contrast {piece['contrast']:.1f}")
    check(piece["edge"] == piece["first"], f"{where}: a field has an edge where it begins, and there alone")
    check(piece["hatched"] == piece["unread"], f"{where}: what was not read is hatched, and that alone")
    if piece["first"]:
        said = piece["label"] or ""
        check(said.startswith(piece["name"]) and "place " in said, f"{where}: its label is {said!r}")
    else:
        check(piece["hidden"] == "true", f"{where}: the rest of a field is read out again")


def check_labels(page, case):
    """Whatever can be reached has a name that is read out."""
    tree = page.driver.execute_cdp_cmd("Accessibility.getFullAXTree", {})["nodes"]
    reached = [node for node in tree if any(
        item["name"] == "focusable" and item["value"]["value"] for item in node.get("properties", []))]
    nameless = [node["role"]["value"] for node in reached if not node.get("name", {}).get("value")
                and node["role"]["value"] != "RootWebArea"]
    check(len(reached) > 10 and not nameless, f"{case}: of {len(reached)} that can be reached without a name: {nameless}")


def check_print(page, case):
    """On paper there are no controls, and nothing is cut off."""
    page.driver.execute_cdp_cmd("Emulation.setEmulatedMedia", {"media": "print"})
    shown = page.ask("""const cut = (id) => at(id).scrollHeight > at(id).clientHeight + 1;
        return { entry: seen("entry"), band: seen("band"), mask: seen("mask"),
          cut: ["band", "field", "messages", "mask", "shown"].filter(cut) };""")
    page.driver.execute_cdp_cmd("Emulation.setEmulatedMedia", {"media": ""})
    check(not shown["entry"] and shown["band"] and shown["mask"], f"{case}: printed {shown}")
    check(not shown["cut"], f"{case}: on paper {shown['cut']} are cut off")


def check_people(page):
    page.rest()
    for case in CASES:
        page.take_case(case)
        for piece in page.ask(SEEN):
            check_piece(piece, case)
        check_labels(page, case)
        check_print(page, case)
