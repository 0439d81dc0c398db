"""Looks up the names that the documents have in back quotes."""

import os
import re

from lib.lint.sources import below_of, text_of, tracked, verdict, without_start

SUBJECT = "the names in back quotes in the documents with the sources"

ABOUT = """Looks up each name that README.md, CONTRIBUTING.md and docs/*.md have in back quotes, and prints those that are nowhere.

A single word in back quotes is a name. It has to be defined in some crate, in its code, its definitions or its proofs; of
`Type::call` both in one file, of `module::call` the call in the module's folder, and each part of `record.field`. Or it is a
crate, an example, a script in tools/, a function of a script, or a word that the program writes. Several words in back quotes are
a line of output, a command, a formula or guest code: of these only words with an underscore or with a capital inside are
names. A word with a slash or with the ending of a file is a file. What begins with two dashes is an option of thynvm or of a
script in tools/. The script has a list of the few words that are none of these.

If the text names the crate or the file, the name has to be defined there: `Keeps` of thy_computer, `Claim`
(`crates/thy_cli/specs/Completing.antt`). In a table that has a crate in its first column, or behind a number, and below a
heading that names files of crates, a name has to be defined in such a crate or in one that it stands on, directly or not.

Exit status: 0 all names are found; 1 some are not; 2 invalid usage, or something cannot be read."""

# Words in back quotes that are no names of this repository.
OTHERS = {
    "words of Rust and of the prover": "if impl requires search Abort Vec",
    "parameters of types in comments that docs/PROOFS.md has": "A B",
    "instructions of the guest": "ld bne ecall",
    "functions and streams of C": "malloc memcpy memmove memset memcmp printf write stdin stdout stderr",
    "variables of the environment": "THYNVM_HELP THYNVM_ANSWER_SECONDS",
    "programs of others": "parallel readelf",
    "words of zsh and of Debian's packages": "fpath _arguments copyright",
    "files and folders of a package": "bin/ bin/thynvm completion/ completion/thynvm.bash man/man1/thynvm.1",
    "words of ELF files and of gcc": "e_phoff p_vaddr p_memsz init_array rv64im_zifencei",
    "a file that a command of a document makes": "greet.image",
    "an option that there is not": "--n",
}
KNOWN = {word for words in OTHERS.values() for word in words.split()}

WORD = re.compile(r"[A-Za-z_][\w']*")
SINGLE = re.compile(r"[A-Za-z_][\w']*(?:(?:::|\.)[A-Za-z_][\w']*)*(?:\(\))?")
TELLING = re.compile(r"\b(?:\w+_\w+|[A-Z][a-z]+[A-Z]\w*|[a-z]+[A-Z]\w*)")
FILE = re.compile(r"(?!.*/\d)[\w.*-]+/[\w.*/-]*|[\w*-]+\.(?:antt|rt|md|py|txt|elf|svg|edit)")
OPTION = re.compile(r"--[a-z]\w*")
# Functions, classes and constants of a script; of several constants in a line the text that names them.
IN_SCRIPTS = re.compile(r"^(?:(?:def|class) (\w+)|(\w+)\(\) \{)|^ *([A-Z][A-Z_]*(?:, [A-Z][A-Z_]*)*) = ", re.M)


def names_in_code(text):
    """What a file of code defines: items, fields, variants, ghosts and names of clauses; and, as `Type::`, what has these."""
    text = re.sub(r"//.*", "", text)
    names = set(re.findall(r"\b(?:fn|struct|enum|trait|const|static|type|mod|ghost|ensures|requires) (\w+)", text))
    for body in re.findall(r"\b(?:struct|enum) \w+[^{;]*\{(.*?)^\}", text, re.M | re.S):
        names.update(re.findall(r"^\s*(?:pub(?:\(crate\))? )?(\w+)\s*(?:[:,({]|$)", body, re.M))
        names.update(re.findall(r"[{,]\s*(\w+): ", body))
    owners = re.findall(r"^ *(?:pub )?(?:impl(?:<[^>]*>)?(?: [^{\n]* for)?|trait|enum|struct) (\w+)", text, re.M)
    return names | {owner + "::" for owner in owners}


def names_in_definitions(text):
    """What a file of definitions or proofs defines; and the words in its texts, which the program writes."""
    text = re.sub(r"--.*", "", text)
    names = set(re.findall(r"^ *(?:(?:abbrev|unfoldable|opaque|pub|record|data) )*([\w']+) :", text, re.M))
    names.update(re.findall(r"\b(?:record|data) ([\w']+)", text))
    for written in re.findall(r'"([^"]*)"', text):
        names.update(WORD.findall(written))
    return names


class Repository:
    """What there is to be named."""

    def __init__(self):
        self.files = tracked()
        self.below = {}
        for crate, others in below_of(text_of("crates.txt")).items():
            self.below[crate] = set(others).union(*(self.below.get(other, ()) for other in others))
        self.names = {path: self.names_in(path) for path in self.files if re.fullmatch(r"crates/.*\.(rt|antt)", path)}
        self.others = KNOWN | set(self.below) | set().union(*self.below.values())
        tools = [path for path in self.files if path.startswith("tools/") and not path.startswith("tools/tests/")]
        examples = [path for path in self.files if path.startswith("examples/")]
        self.others.update(os.path.splitext(os.path.basename(path))[0] for path in tools + examples)
        scripts = [text_of(path) for path in ("thynvm", *tools)]
        self.others.update(OPTION.findall("\n".join(scripts)))
        found = [text for script in scripts for texts in IN_SCRIPTS.findall(script) for text in texts if text]
        self.others.update(name for text in found for name in text.split(", "))

    def names_in(self, path):
        modules = {folder + "::" for folder in path.split("/")[3:-1]}
        return modules | (names_in_code if path.endswith(".rt") else names_in_definitions)(text_of(path))

    def defines(self, name, crates):
        """Whether a name is known; if crates are given, to one of these or to one that they stand on."""
        owner, _, name = name.rpartition("::")
        if owner in self.below:
            crates, owner = {owner}, ""
        places = tuple(f"crates/{crate}/" for crate in crates.union(*(self.below.get(crate, ()) for crate in crates)))
        wanted = {name, f"{owner}::"} if owner else {name}
        found = any(wanted <= names for path, names in self.names.items() if path.startswith(places or "crates/"))
        return found or name in self.others

    def has_file(self, path):
        """Whether there is such a file or folder, as seen from the top, from a crate, or by its name alone."""
        pattern = re.escape(without_start(path, "./").rstrip("/")).replace(r"\*", r"[^/]*")
        return any(re.search(rf"(?:^|/){pattern}(?:/|$)", file) for file in self.files)

    def file_defines(self, path, name):
        return any(name in names for file, names in self.names.items() if file.startswith(path))


def crates_of(lines):
    """The crates that each line is about: that of the table's row, else those of files in the heading above it."""
    row, heading = set(), set()
    for line in lines:
        cell = re.match(r"\| *(?:\d+ *\| *)?(\w*) *\|", line)
        if not cell or cell[1]:
            row = set(re.findall(r"^thy_\w+", cell[1])) if cell else set()
        if line.startswith("#"):
            heading = set(re.findall(r"`crates/(thy_\w+)/", line))
        yield row or heading


def spans_of(text):
    """What stands in back quotes outside of blocks of code: line, words, the text behind, and the crates that it is about."""
    lines = ["" if line.startswith("    ") else line for line in text.splitlines()]
    crates, whole = list(crates_of(lines)), "\n".join(lines)
    for span in re.finditer(r"`([^`]+)`", whole):
        line = whole.count("\n", 0, span.start())
        behind = " ".join(whole[span.end() : span.end() + 200].split("\n"))
        yield line + 1, " ".join(span[1].split()), behind, crates[line]


def names_of(words):
    """The names, files and options among words in back quotes."""
    if SINGLE.fullmatch(words) and not FILE.fullmatch(words):
        return [words] if words in KNOWN else re.findall(r"[\w']+(?:::[\w']+)?", words)
    found = [word for word in words.split() if FILE.fullmatch(word)]
    return found + OPTION.findall(words) + TELLING.findall(FILE.sub(" ", OPTION.sub(" ", words)))


def missing(repository, words, behind, crates):
    """The names among some words that are not where they have to be, each with where it was looked up."""
    owner = re.match(r"(?: of|,) (thy_\w+)", behind)
    file = re.match(r"(?: \(|, )`(crates/[^`*]+)`", behind)
    for name in names_of(words):
        if name in KNOWN:
            continue
        if FILE.fullmatch(name):
            if not repository.has_file(name):
                yield name, "the repository"
        elif file and SINGLE.fullmatch(words):
            if not repository.file_defines(file[1], name):
                yield name, file[1]
        elif not repository.defines(name, {owner[1]} if owner else crates):
            place = " and ".join({owner[1]} if owner else sorted(crates))
            yield name, f"{place} and what it stands on" if place else "the repository"


def add_to(_parser):
    """This part has no options."""


def check(_words=None):
    """Looks the names up, and prints those that are nowhere. The status."""
    here, wrong, count = Repository(), [], 0
    documents = [path for path in here.files if re.fullmatch(r"README\.md|CONTRIBUTING\.md|docs/[^/]*\.md", path)]
    for document in documents:
        for line, words, behind, crates in spans_of(text_of(document)):
            count += len(names_of(words))
            for name, place in missing(here, words, behind, crates):
                wrong.append(f"{document}:{line}: `{words}`: {name} is not in {place}")
    return verdict(wrong, f"{count} names in {len(documents)} documents are found")


work = check
