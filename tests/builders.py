"""What a builder writes for a goal, as docs/builders.md says. Nothing of the store is used."""
from desks import Derivation
from standards import archive, sha256, store_path

EMPTY_FILE = archive(("f", b""))


def nb(arguments, out, inputs):
    """The bytes that `nb` writes with these arguments, this path of its own and these paths of inputs; nothing where
    it fails."""
    one_word = {
        "self": archive(("f", out.encode())), "inputs": archive(("f", "".join(f"{path}\n" for path in inputs).encode())),
        "half": EMPTY_FILE[:50], "twice": 2 * EMPTY_FILE,
    }
    if len(arguments) == 1:
        return one_word.get(arguments[0])
    return archive(("f", " ".join(arguments[1:]).encode())) if arguments[:1] == ["text"] else None


def written(goal):
    """The bytes that the builder of a planned goal writes; nothing where it fails, as every builder does but `nb`."""
    resolved = Derivation(goal.text)
    out = store_path("scratch", sha256(goal.text.encode()), resolved.name)
    inputs = sorted({path for _, path, _ in goal.records} | set(goal.sources))
    return nb(resolved.arguments, out, inputs) if resolved.builder == "nb" else None
