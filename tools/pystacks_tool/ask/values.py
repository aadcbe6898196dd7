"""Values of locals as `pysalvage` tells them, by their trees: what is hidden of them, and the text of one of which a part is hidden.

A value is hidden where its name, the key of a dict under which it stands or the name of its attribute holds one of some words, in
whatever case. That is no promise: what stands under other names, or within a text, is shown.
"""

from typing import Callable, Dict, Iterable, Iterator, List, Sequence, Tuple

from pystacks_tool.ask.dump import Tree

SECRETS = ("password", "passwd", "secret", "token", "authorization", "cookie", "api_key")
"""The words by which values are hidden in pages, unless it is said otherwise."""

HIDDEN = "<hidden>"
"""The text of a hidden value."""

WORD = "0123456789ABCDEFGHIJKLMNOPQRSTUVWXYZabcdefghijklmnopqrstuvwxyz_"
"""The characters of ASCII that identifiers have."""

HIDDEN_TREE: Tree = {"kind": "hidden"}

LEVELS = 64
"""How deep trees are looked into: the program tells 20 levels at most."""

BRACKETS: Dict[str, Tuple[str, str, str]] = {
    "list": ("[", ", ", "]"), "tuple": ("(", ", ", ")"), "set": ("{", ", ", "}"), "frozenset": ("frozenset({", ", ", "})"),
    "range": ("range(", ", ", ")"), "slice": ("slice(", ", ", ")"), "cell": ("<cell: ", ", ", ">"), "method": ("<bound method ", " of ", ">"),
    "dict": ("{", ", ", "}"),
}
"""What stands before the items of a container, between them and behind them."""

PARTS = {"dict": "items", "instance": "attributes"}
"""Where values have pairs of a name and what it names."""

EMPTY = {"set": "set()", "frozenset": "frozenset()"}


def tells_values(tree: Tree) -> bool:
    """Whether a core's JSON tells values of locals itself: then each local has the key. Where there is no local nothing is missing."""
    first = next((row for member in members_of(tree) for row in member.get("locals") or ()), None)
    return first is None or "value" in first


def holds(name: str, words: Sequence[str]) -> bool:
    """Whether a name holds one of some words."""
    low = name.lower()
    return any(it in low for it in words)


# ---- the text of a tree, as the program writes it


def with_rest(text: str, shown: int, tree: Tree, what: str) -> str:
    """A text or bytes by the first, with how many there are where not all are shown."""
    return text if shown == tree["length"] else f"{text}.. {tree['length']} {what}"


def bytes_text(tree: Tree) -> str:
    """Bytes of some kind."""
    front = bytes.fromhex(tree["hex"])
    words = {"bytes": repr(front), "bytearray": f"bytearray({front!r})"}
    return with_rest(words.get(tree["kind"], repr(front)[1:]), len(front), tree, "bytes")


def number_text(tree: Tree) -> str:
    """An integer."""
    if tree["value"] is None:
        return f"<{'negative ' if tree['negative'] else ''}int of {tree['digits']} digits of 30 bits>"
    return f"{tree['value']}{'L' if tree['kind'] == 'long' else ''}"


def items_text(tree: Tree, parts: List[str]) -> str:
    """A container by the texts of what it holds."""
    kind, more = tree["kind"], tree["more"]
    if not parts and not more and kind in EMPTY:
        return EMPTY[kind]
    opening, between, closing = BRACKETS[kind]
    comma = "," if kind == "tuple" and len(parts) == 1 and not more else ""
    return opening + between.join(parts + [f".. {more} more"] * (more > 0)) + comma + closing


def named(tree: Tree, key: str = "name") -> str:
    """A name, or a question mark. One that could be taken for more than a name stands in quotes."""
    name = tree.get(key)
    if name is None:
        return "?"
    is_plain = name and all(it.isprintable() and it not in " '\"" for it in name)
    return str(name) if is_plain else repr(name)


def quoted(tree: Tree) -> str:
    """A name in quotes, or a question mark."""
    return "?" if tree.get("name") is None else repr(tree["name"])


def coroutine_text(tree: Tree) -> str:
    """A coroutine, a generator or an async generator: its name and how far it has come, where these are known."""
    name = "" if tree["name"] is None else f" {named(tree)}"
    state = "" if tree["state"] is None else f": {tree['state']}"
    return f"<{tree['kind'].replace(' ', '_')}{name} at {tree['address']}{state}>"


LEAVES: Dict[str, Callable[[Tree], str]] = {
    "hidden": lambda it: HIDDEN, "none": lambda it: "None", "ellipsis": lambda it: "Ellipsis", "not implemented": lambda it: "NotImplemented",
    "absent": lambda it: "empty", "bool": lambda it: str(it["value"]), "int": number_text, "long": number_text, "float": lambda it: str(it["text"]),
    "str": lambda it: with_rest(repr(it["value"]), len(it["value"]), it, "characters"),
    "unicode": lambda it: with_rest("u" + ascii(it["value"]), len(it["value"]), it, "characters"),
    "bytes": bytes_text, "bytearray": bytes_text, "class": lambda it: f"<class {quoted(it)}>",
    "function": lambda it: f"<function {named(it)} at {it['address']} ({named(it, 'file')}:{it['line']})>",
    "builtin": lambda it: f"<built-in function {named(it)}>", "module": lambda it: f"<module {quoted(it)}>",
    "coroutine": coroutine_text, "generator": coroutine_text, "async generator": coroutine_text,
    "object": lambda it: f"<{named(it, 'type')} at {it['address']}>",
    "unreadable": lambda it: f"<{it['of']}: {it['length']} bytes unreadable at {it['address']}>",
    "damaged": lambda it: f"<{it['of']}: broken at {it['address']}>",
}
"""The texts of values that hold no others, by their kinds."""


def attribute_name(text: str) -> str:
    """The name of an attribute by its text: an identifier has no quotes."""
    inner = text[1:-1]
    plain = inner and all(it in WORD or it > "\x7f" for it in inner) and inner[0] not in "0123456789"
    return inner if plain and text[0] == text[-1] == "'" else text


def instance_text(tree: Tree, levels: int) -> str:
    """An instance by its attributes that are shown."""
    parts = [f"{attribute_name(text_of(name, levels))}={text_of(value, levels)}" for name, value in tree["attributes"]]
    rest = [f".. {tree['more']} more"] * (tree["more"] > 0)
    return f"<{named(tree, 'type')} at {tree['address']}: {', '.join(parts + rest)}>"


def text_of(tree: Tree, levels: int = LEVELS) -> str:
    """The text of a value. One of a kind that isn't known here is told by its kind."""
    kind = tree["kind"]
    if kind in BRACKETS and levels:
        rows = tree["items"]
        if kind == "dict":
            return items_text(tree, [f"{text_of(key, levels - 1)}: {text_of(value, levels - 1)}" for key, value in rows])
        return items_text(tree, [text_of(it, levels - 1) for it in rows])
    if kind == "instance" and levels:
        return instance_text(tree, levels - 1)
    return LEAVES[kind](tree) if kind in LEAVES else f"<{kind}>"


# ---- what is hidden


def key_name(tree: Tree) -> str:
    """A key by which is told whether it holds a word: what it says, of a text or bytes, and else its text, which has all that is shown
    of what it holds."""
    if isinstance(tree.get("hex"), str):
        return bytes.fromhex(tree["hex"]).decode("latin-1")
    return str(tree["value"]) if tree["kind"] in ("str", "unicode") else text_of(tree)


def hidden_pair(pair: List[Tree], words: Sequence[str], levels: int) -> List[Tree]:
    """A key and its value, which is hidden where the key holds one of the words."""
    key, value = pair
    return [key, HIDDEN_TREE if holds(key_name(key), words) else hidden(value, words, levels)]


def hidden(tree: Tree, words: Sequence[str], levels: int = LEVELS) -> Tree:
    """A value in which what stands under keys, or as attributes, that hold one of the words is hidden."""
    part = PARTS.get(tree["kind"], "items")
    if not levels or not isinstance(tree.get(part), list):
        return tree
    if tree["kind"] in PARTS:
        return {**tree, part: [hidden_pair(it, words, levels - 1) for it in tree[part]]}
    return {**tree, "items": [hidden(it, words, levels - 1) for it in tree["items"]]}


def hide_row(row: Tree, words: Sequence[str]) -> None:
    """Hides a local's value, or what its dicts and instances hold under such names. Of a value without a tree, which `dump` told, all is hidden where it
    holds a word."""
    tree = row.get("value")
    if holds(row["name"], words) or tree is None and row["repr"] is not None and holds(row["repr"], words):
        row["repr"] = HIDDEN
        if "value" in row:
            row["value"] = HIDDEN_TREE
    elif tree is not None:
        less = hidden(tree, words)
        if less != tree:
            row["value"], row["repr"] = less, text_of(less)


def members_of(tree: Tree) -> Iterator[Tree]:
    """The frames of a core's JSON, and members without names."""
    return (member for one in tree["interpreters"] for thread in one["threads"] for part in ("first", "last") for member in thread["frames"][part])


def hide_in_frames(frames: Iterable[Tree], words: Sequence[str]) -> None:
    """Hides values of the locals of some frames."""
    if words:
        for frame in frames:
            for row in frame.get("locals") or ():
                hide_row(row, words)


def hide(tree: Tree, words: Sequence[str]) -> None:
    """Hides values in a core's JSON."""
    hide_in_frames(members_of(tree), words)
