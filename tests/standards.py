"""Digests, archives, paths, derivations, and the paths of outputs, from the public standards alone.

FIPS 180-4 for digests; the Nix Reference Manual for archives ("Nix Archive (NAR) Format"), derivations
("Store Derivation and Deriving Path"), store paths and their hash parts ("Store Path", "Complete Store
Path Calculation"); Dolstra 2006, chapter 6, for the rewriting of hash parts. Nothing of the store is used.

A tree is a pair: `f`, `x` or `l` with the bytes of a file, an executable file or a link, or `d` with a list
of pairs, each a name and a tree.
"""
import hashlib
import struct

DIGITS = "0123456789abcdfghijklmnpqrsvwxyz"


class Refused(Exception):
    """Its text is the number of a refusal, its name and, of a refused rewriting, the reason."""

    def number(self):
        return int(str(self)[:2])


def sha256(data):
    return hashlib.sha256(data).digest()


def fold(digest):
    folded = bytearray(20)
    for place, byte in enumerate(digest):
        folded[place % 20] ^= byte
    return bytes(folded)


def base32(data):
    number = int.from_bytes(data, "little")
    return "".join(DIGITS[number >> 5 * place & 31] for place in reversed(range(32)))


def store_path(kind, digest, name):
    hashed = f"{kind}:sha256:{digest.hex()}:/nix/store:{name}"
    return f"/nix/store/{base32(fold(sha256(hashed.encode())))}-{name}"


def string(data):
    return struct.pack("<Q", len(data)) + data + bytes(-len(data) % 8)


def strings(*all_of_them):
    return b"".join(map(string, all_of_them))


def node(tree):
    kind, held = tree
    if kind == "l":
        return strings(b"(", b"type", b"symlink", b"target", held, b")")
    if kind in "fx":
        mark = strings(b"executable", b"") if kind == "x" else b""
        return strings(b"(", b"type", b"regular") + mark + strings(b"contents", held, b")")
    entries = (strings(b"entry", b"(", b"name", name, b"node") + node(tree) + string(b")") for name, tree in held)
    return strings(b"(", b"type", b"directory") + b"".join(entries) + string(b")")


def archive(tree):
    return string(b"nix-archive-1") + node(tree)


def read_node(data, at, level=1):
    """The tree whose node stands in a text from there on, and the offset behind it; of other texts anything, or
    a fault."""
    def read(at):
        end = at + 8 + int.from_bytes(data[at:at + 8], "little")
        return data[at + 8:end], end + (at - end) % 8
    if level > 64:
        raise ValueError
    kind, at = read(at + len(strings(b"(", b"type")))
    if kind == b"symlink":
        target, at = read(at + len(string(b"target")))
        return ("l", target), at + len(string(b")"))
    if kind == b"regular":
        mark = read(at)[0] == b"executable"
        held, at = read(at + mark * len(strings(b"executable", b"")) + len(string(b"contents")))
        return ("x" if mark else "f", held), at + len(string(b")"))
    entries = []
    while kind == b"directory" and read(at)[0] == b"entry":
        name, at = read(at + len(strings(b"entry", b"(", b"name")))
        entry, at = read_node(data, at + len(string(b"node")), level + 1)
        entries.append((name, entry))
        at += len(string(b")"))
    return ("d", entries), at + len(string(b")"))


def is_entry_name(name):
    return 1 <= len(name) <= 255 and name not in (b".", b"..") and b"/" not in name and b"\0" not in name


def has_good_names(tree):
    kind, held = tree
    names = [name for name, _ in held] if kind == "d" else []
    return all(map(is_entry_name, names)) and all(a < b for a, b in zip(names, names[1:])) and (
        kind != "d" or all(has_good_names(entry) for _, entry in held))


def read_archive(data):
    """The tree whose archive that is; nothing where it is none, or is over 64 MiB."""
    if len(data) > 64 << 20:
        return None
    try:
        tree, _ = read_node(data, len(string(b"nix-archive-1")))
    except ValueError:
        return None
    return tree if archive(tree) == data and has_good_names(tree) else None


def tree_text(tree):
    kind, held = tree
    if kind == "d":
        return f"d({','.join(f'{name.hex()}={tree_text(entry)}' for name, entry in held)})"
    return f"{kind}:{held.hex()}"


def quoted(text):
    for plain, letter in (("\\", "\\"), ('"', '"'), ("\n", "n"), ("\r", "r"), ("\t", "t")):
        text = text.replace(plain, "\\" + letter)
    return f'"{text}"'


def derivation(inputs, sources, arguments, name):
    used = ",".join(f'({quoted(path)},["out"])' for path in inputs)
    listed = (",".join(map(quoted, texts)) for texts in (sources, arguments))
    return 'Derive([("out","","","")],[{}],[{}],"p","nb",[{}],[("name","{}"),("out","")])'.format(used, *listed, name)


def strings_in(tree, at):
    """The strings of a node whose text begins at that offset: of each whether it is a name, its bytes, and
    the offset of these; and the offset behind the node."""
    def skip(at, *texts):
        return at + len(strings(*texts))
    kind, held = tree
    found = []
    if kind == "d":
        at = skip(at, b"(", b"type", b"directory")
        for name, entry in held:
            at = skip(at, b"entry", b"(", b"name")
            found.append((True, name, at + 8))
            inner, at = strings_in(entry, skip(at, name, b"node"))
            found += inner
            at = skip(at, b")")
    else:
        marks = [b"(", b"type", b"symlink", b"target"] if kind == "l" else [b"(", b"type", b"regular"]
        marks += [b"executable", b""] if kind == "x" else []
        at = skip(at, *marks) if kind == "l" else skip(at, *marks, b"contents")
        found.append((False, held, at + 8))
        at = skip(at, held)
    return found, skip(at, b")")


def places_of(tree, keys):
    """Where keys stand in the names, file bytes and link targets of a tree: their offsets in its archive,
    ascending, each with its key."""
    texts, end = strings_in(tree, len(string(b"nix-archive-1")))
    assert end == len(archive(tree))
    crowded = in_name = False
    places = []
    for is_name, text, at in texts:
        here = [i for i in range(len(text) - 31) if text[i:i + 32].decode("latin-1") in keys]
        in_name |= is_name and bool(here)
        crowded |= any(b - a < 32 for a, b in zip(here, here[1:]))
        places += [(at + i, text[i:i + 32].decode()) for i in here]
    if in_name or crowded:
        raise Refused("52 RewriteRefused InName" if in_name else "52 RewriteRefused Overlap")
    return places


def put(tree, images):
    """A tree with the image of each key in its place. No two keys share bytes."""
    kind, held = tree
    if kind == "d":
        return kind, [(name, put(entry, images)) for name, entry in held]
    new = bytearray(held)
    for at, key in ((i, held[i:i + 32].decode("latin-1")) for i in range(len(held) - 31)):
        if key in images:
            new[at:at + 32] = images[key].encode()
    return kind, bytes(new)


def put_truly(tree, images):
    """A tree with the image of each key in its place, where keys and images stand nowhere else in it."""
    wanted = [(at, images[key]) for at, key in places_of(tree, images)]
    new = put(tree, images)
    replaced = {key for key, image in images.items() if key != image}
    try:
        is_true = places_of(new, {*images, *images.values()}) == wanted
    except Refused:
        is_true = False
    if not is_true or replaced & {image for _, image in wanted}:
        raise Refused("52 RewriteRefused Accidental")
    return new


def settled(tree, own, name, candidates):
    """The path of a tree that was built under a hash part, by hashing modulo self-references: the digest of
    the archive with the own hash part zeroed, and behind it each offset after a bar. That is how Nix makes
    the path of kind `source` of a tree with references. With it are the references, the offsets, and the
    tree in which its own hash part is that of the path. The candidates are a set."""
    parts = {path: path[11:43] for path in candidates}
    places = places_of(tree, {own, *parts.values()})
    offsets = [at for at, key in places if key == own]
    blanked = bytearray(archive(tree))
    for at in offsets:
        blanked[at:at + 32] = bytes(32)
    digest = sha256(bytes(blanked) + b"".join(b"|%d" % at for at in offsets))
    references = sorted(path for path in parts if parts[path] in {key for _, key in places})
    itself = ":self" if offsets else ""
    path = store_path("source" + "".join(f":{path}" for path in references) + itself, digest, name)
    images = {own: path[11:43], **{part: part for part in parts.values()}}
    return path, references, offsets, put_truly(tree, images)
