"""An LLVM module as text: what C calls in it, whether these calls are passed alike on every machine, and the same module for another target.

    module.py names MODULE           the names of the functions that C calls
    module.py plain MODULE           says which of them take or give more than plain numbers and pointers; status 1 where one does
    module.py like DECLARED MODULE   writes the module for the target of DECLARED, which is clang's module of C code that declares these
                                     functions. What C does not declare is not handed out. Status 1 where a declaration does not fit.

Why a call must be plain: `byval` and `sret` say how x86-64 passes a struct, and other machines do it otherwise. Rattle also hands a struct
back through a first pointer without the word `sret`; such a function returns that pointer, so a returned pointer is refused too.
"""
import dataclasses
import re
import sys

FUNCTION = re.compile(r'^(define|declare) ([^@]*)@("[^"]*"|[\w.$]+)\((.*)\)([^()]*)$', re.M)
INNER = re.compile(r"\b(internal|private)\b")
OF_X86 = re.compile(r' "(?:target-cpu|target-features|tune-cpu)"="[^"]*"')
HEAD = re.compile(r'^target (datalayout|triple) = ".*"$', re.M)
PASSING = re.compile(r"\b(byval|sret|inreg|inalloca|preallocated|byref|nest|swiftself)\b(?:\([^()]*\))?")
TYPE = re.compile(r"[\[{<].*[\]}>]|\S+")
RESULT = re.compile(r"([\[{<].*[\]}>]|\S+)(?= $)")
EXTENSION = re.compile(r"\b(signext|zeroext) ")
WORDS = {"i8", "i16", "i32", "i64", "ptr"}  # of a parameter
RESULTS = {"i32", "i64", "void"}  # how a narrower one fills its register is told by its sign, which the module does not have


@dataclasses.dataclass
class Call:
    name: str
    result: str
    extension: str  # how the result fills its register: signext, zeroext, or nothing is said
    parameters: list  # a type each, with the words that say how it is passed


def parts(text):
    """A list of parameters, split at the commas that are in no bracket."""
    flat = text
    while re.search(r"[(\[{][^()\[\]{}]*[)\]}]", flat):
        flat = re.sub(r"[(\[{][^()\[\]{}]*[)\]}]", lambda found: "_" * len(found[0]), flat)
    ends = [k for k, letter in enumerate(flat) if letter == ","] + [len(text)]
    starts = [0] + [end + 1 for end in ends]
    return [text[start:end].strip() for start, end in zip(starts, ends) if text[start:end].strip()]


def parameter(text):
    return " ".join([TYPE.match(text)[0], *(found[0] for found in PASSING.finditer(text))])


def calls(module, kind):
    """The functions that C calls: defined in the module, or declared to it."""
    for how, words, name, inside, _ in FUNCTION.findall(module):
        if how == kind and not INNER.search(words) and not name.startswith("llvm."):
            extension = EXTENSION.search(words)
            yield Call(name, RESULT.search(words)[0], extension[1] if extension else "", [parameter(part) for part in parts(inside)])


def unfit(call):
    """What another machine passes in another way."""
    for number, words in enumerate(call.parameters, 1):
        if words not in WORDS:
            yield f"{call.name}: parameter {number} is {words}"
    if call.result not in RESULTS:
        yield f"{call.name}: gives back {call.result}"


def differing(call, declared):
    """Where a C compiler for the target calls it otherwise. What extends a parameter is the caller's to do; we rely on none of it."""
    if (call.result, call.parameters) != (declared.result, declared.parameters):
        yield f"{call.name}: gives {call.result} for {call.parameters}, but C declares {declared.result} for {declared.parameters}"


def like(module, heads, declared):
    """The module for the target of the declarations: its layout and triple, no processor by name, and results that fill their register."""
    module = OF_X86.sub("", HEAD.sub(lambda found: heads[found[1]], module))
    for call in calls(module, "define"):
        how = "internal " if call.name not in declared else declared[call.name].extension + " " if declared[call.name].extension else ""
        if how:
            module = re.sub(rf"^define ([^@]*@{re.escape(call.name)}\()", rf"define {how}\1", module, flags=re.M)
    return module


def main(what, *files):
    texts = [open(name, encoding="utf-8").read() for name in files]
    ours = list(calls(texts[-1], "define"))
    if what == "names":
        print("\n".join(call.name for call in ours))
        return 0
    faults = [fault for call in ours for fault in unfit(call)]
    if what == "like":
        declared = {call.name: call for call in calls(texts[0], "declare")}
        faults += [fault for call in ours if call.name in declared for fault in differing(call, declared[call.name])]
        if not faults:
            sys.stdout.write(like(texts[1], {found[1]: found[0] for found in HEAD.finditer(texts[0])}, declared))
    for fault in faults:
        print(f"    {fault}", file=sys.stderr)
    return 1 if faults or not ours else 0


if __name__ == "__main__":
    sys.exit(main(*sys.argv[1:]))
