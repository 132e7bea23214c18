"""The module of the proved code, for processors that the prover's compiler doesn't know.

The prover's compiler lowers the proved crate to a module of LLVM, for x86-64, and hands it to clang. Clang knows more
processors. The module depends on its processor in three ways, and each is rewritten here:

- the layout of data and the name of the machine, which are taken from clang;
- attributes of x86-64: its processor, and its stack probes;
- **the width of a pointer**, which is 64 bits in the module. A place of memory that holds a pointer keeps its 8 bytes,
  and each field the offset that it has in 64 bits, since the module names offsets in bytes. On a machine of 32 bits a
  pointer fills the first 4 of them, and the others are never read as a part of it.

`FORMS` lists what an instruction of a module may look like. A module with any other is refused, so that no instruction
that depends on the width is rewritten by chance or passed over. Of those that are listed these depend on it:

| instruction | for pointers of 32 bits |
|---|---|
| a place for a pointer on the stack | a place of 8 bytes |
| a pointer that is loaded or stored | 4 bytes at the same offset |
| two fields that are loaded at once, one a pointer | each by itself, at the offset that it has in 64 bits |
| the address of a pointer, as a number | the address, with zeros before it |
| an offset that is added to a pointer | the same: the machine takes its lower 32 bits, and no object is larger |
| a length that memory is copied or filled by | the same, for the same reason |

Everything else is arithmetic on numbers whose width the module names. Lengths are numbers of 64 bits; boot/exports.c
widens those of C.
"""
import re

WIDTHS = {"i1": 1, "i8": 1, "i16": 2, "i32": 4, "i64": 8, "ptr": 8}
# parts of an instruction: a number's type, a value, an operand with what is known of it, a constant, an alignment
NUMBER = r"i(?:1|8|16|32|64)"
VALUE = r"%[\w.]+"
SCALAR = rf"(?:{NUMBER}|ptr)"
PAIR = rf"\{{ {SCALAR}, {SCALAR} \}}"
TYPE = rf"(?:{SCALAR}|{PAIR})"
ATOM = rf"(?:{VALUE}|-?\d+|true|false|null|undef|poison|zeroinitializer|@static\.\d+)"
NAME = r'@(?:[\w.]+|"[^"]*")'
KNOWN = r"(?: (?:noundef|nonnull|zeroext|signext|readonly|writeonly|captures\(none\)|immarg))*"
OPERAND = rf"{SCALAR}{KNOWN} {ATOM}"
PARAMETERS = rf"\((?:{SCALAR}{KNOWN}(?: {VALUE})?(?:, {SCALAR}{KNOWN}(?: {VALUE})?)*)?\)"
# what a module may call of LLVM: copies and fills by a length of 64 bits, and a trap
INTRINSIC = r"@llvm\.(?:memcpy\.p0\.p0\.i64|memmove\.p0\.p0\.i64|memset\.p0\.i64|trap)"
END = r"(?:, ![\w.]+ !\d+)*"
ALIGN = r", align \d+"
# what an instruction may look like
FORMS = [re.compile(rf"  {form}") for form in (
    rf"{VALUE} = alloca (?:{SCALAR}|\[\d+ x i8\]){ALIGN}",
    rf"{VALUE} = load {TYPE}, ptr {ATOM}{ALIGN}{END}",
    rf"store {SCALAR} {ATOM}, ptr {ATOM}{ALIGN}{END}",
    rf"{VALUE} = getelementptr(?: inbounds)?(?: nuw)? i8, ptr {ATOM}, i64 {ATOM}",
    rf"{VALUE} = (?:add|sub|mul|udiv|urem|shl|lshr|ashr|and|or|xor)(?: nuw)?(?: nsw)?(?: exact)?(?: disjoint)?"
    rf" {NUMBER} {ATOM}, {ATOM}",
    rf"{VALUE} = icmp (?:eq|ne|u[gl][te]|s[gl][te]) {SCALAR} {ATOM}, {ATOM}",
    rf"{VALUE} = (?:zext|sext|trunc)(?: nneg)?(?: nuw)?(?: nsw)? {NUMBER} {ATOM} to {NUMBER}",
    rf"{VALUE} = ptrtoaddr ptr {VALUE} to i64",
    rf"{VALUE} = extractvalue {PAIR} {ATOM}, [01]",
    rf"{VALUE} = insertvalue {PAIR} {ATOM}, {SCALAR} {ATOM}, [01]",
    rf"{VALUE} = select i1 {ATOM}, {SCALAR} {ATOM}, {SCALAR} {ATOM}",
    rf"{VALUE} = phi {SCALAR} \[ {ATOM}, {VALUE} \](?:, \[ {ATOM}, {VALUE} \])*",
    rf"(?:{VALUE} = )?(?:tail )?call{KNOWN} (?:void|{TYPE}) {NAME}\((?:{OPERAND}(?:, {OPERAND})*)?\)(?: #\d+)?",
    rf"ret (?:void|{TYPE} {ATOM})",
    rf"br (?:label {VALUE}|i1 {ATOM}, label {VALUE}, label {VALUE})",
    rf"switch {NUMBER} {ATOM}, label {VALUE} \[",
    rf"  {NUMBER} -?\d+, label {VALUE}",
    r"\]",
    r"unreachable",
)]
# what a line outside of functions may look like
OUTSIDE = [re.compile(form) for form in (
    r";.*", r'source_filename = "\w+"', r'target (?:datalayout|triple) = ".*"',
    r"@static\.\d+ = private unnamed_addr constant \[\d+ x i8\] (?:c\".*\"|zeroinitializer), align \d+",
    r"attributes #\d+ = \{[^%]*\}", r"!.*",
    rf"define(?: internal| dso_local)?{KNOWN} (?:void|{TYPE}) {NAME}{PARAMETERS}(?: unnamed_addr)?(?: #\d+)? \{{",
    rf"declare void {INTRINSIC}{PARAMETERS}(?: #\d+)?",
    r"\}",
)]
# On Arm: no form has a floating-point number, so programs of either float ABI may link it (Tag_ABI_VFP_args).
EITHER_FLOAT_ABI = 'module asm ".eabi_attribute 28, 3"\n'
LABEL = re.compile(r"[\w.]+:(?: +; (?:preds = .*|No predecessors!))?")


class Unknown(Exception):
    """A line that a module may not have."""


def check(text):
    """Refuses a module that has a line of another form than the listed ones."""
    for number, line in enumerate(text.splitlines(), 1):
        forms = FORMS if line.startswith("  ") else [*OUTSIDE, LABEL]
        if line and not any(form.fullmatch(line) for form in forms):
            raise Unknown(f"line {number} of the module has a form that boot/module.py doesn't know: {line.strip()}")


def machine(said):
    """The layout, the name and the bytes of a pointer of a machine, from what clang says of an empty program."""
    layout = re.search(r'^target datalayout = "(.*)"$', said, re.M)[1]
    return layout, re.search(r'^target triple = "(.*)"$', said, re.M)[1], 4 if "-p:32:" in layout else 8


def parts(found, names):
    """Loads two fields at once, by each of them."""
    result, types, pointer = found[1], found[2].split(", "), found[3]
    whole, lines, end = "poison", [], 0
    for at, kind in enumerate(types):
        offset = -(-end // WIDTHS[kind]) * WIDTHS[kind]
        end = offset + WIDTHS[kind]
        place, part = next(names), next(names)
        to = result if at == len(types) - 1 else next(names)
        lines += [f"  {place} = getelementptr i8, ptr {pointer}, i64 {offset}",
                  f"  {part} = load {kind}, ptr {place}, align {min(WIDTHS[kind], int(found[4]))}",
                  f"  {to} = insertvalue {{ {found[2]} }} {whole}, {kind} {part}, {at}"]
        whole = to
    return "\n".join(lines)


def narrowed(text):
    """A module with pointers of 32 bits in the places of 64."""
    names = (f"%narrow.{number}" for number in range(1 << 30))
    text = re.sub(r"^(  %[\w.]+ = alloca) ptr,", r"\1 [8 x i8],", text, flags=re.M)
    text = re.sub(rf"^  ({VALUE}) = load \{{ ({SCALAR}, {SCALAR}) \}}, ptr ({ATOM}), align (\d+){END}$",
                  lambda found: parts(found, names), text, flags=re.M)

    def address(found):
        number = next(names)
        return f"  {number} = ptrtoaddr ptr {found[2]} to i32\n  {found[1]} = zext i32 {number} to i64"

    return re.sub(rf"^  ({VALUE}) = ptrtoaddr ptr ({VALUE}) to i64$", address, text, flags=re.M)


def module_for(text, said):
    """The module for a machine, of which clang says this of an empty program. On the stack, arrays of bytes are aligned
    as numbers of 64 bits are: a machine that loads no number from an odd address then copies them by words."""
    check(text)
    layout, name, pointer = machine(said)
    text = re.sub(r"^target datalayout = .*$", f'target datalayout = "{layout}"', text, flags=re.M)
    text = re.sub(r"^target triple = .*$", f'target triple = "{name}"', text, flags=re.M)
    text = re.sub(r' "(?:target-cpu|probe-stack|stack-probe-size)"="[^"]*"', "", text)
    text = re.sub(r"^(  %[\w.]+ = alloca \[\d+ x i8\], align) [124]$", r"\1 8", text, flags=re.M)
    if name.startswith(("arm", "thumb")):
        text += EITHER_FLOAT_ABI
    return text if pointer == 8 else narrowed(text)
