"""The crates of the repository, as crates.txt names them."""
import os

TOP = os.path.dirname(os.path.dirname(os.path.abspath(__file__)))


def read(text):
    """Each crate with the crates of the repository that it names, lowest first."""
    lines = (line.partition("#")[0].partition(":") for line in text.splitlines())
    named = {name.split()[0]: words.split() for name, _, words in lines if name.strip()}
    own = {name: [it for it in words if it in named] for name, words in named.items()}
    return {name: own[name] for name in sorted(own, key=lambda it: (len(below(own, it)), it))}


def below(crates, name):
    """The crates that one stands on."""
    found = set(crates[name])
    for it in crates[name]:
        found |= below(crates, it)
    return found


def with_those_above(crates, names):
    """These crates and those that stand on them, lowest first."""
    return [it for it in crates if it in names or below(crates, it) & set(names)]


def all_crates():
    """The crates of the repository."""
    with open(f"{TOP}/crates.txt", encoding="utf-8") as file:
        return read(file.read())


def folder(name):
    """The folder of a crate."""
    return f"{TOP}/crates/{name}"


def is_program(name):
    """Whether a crate is a program, and no library."""
    return os.path.exists(f"{folder(name)}/src/main.rt")


def stored_words(name):
    """The words of the stored run of a program, each a line of its file args."""
    path = f"{folder(name)}/args"
    if not os.path.exists(path):
        return []
    with open(path, encoding="utf-8") as file:
        return file.read().split("\n")[:-1]
