"""Writes the LLVM module of the kit for another machine.

The kit makes it for x86-64. `with_target` changes what a module says of its machine, and `with_export` the name and
the linkage of a function: tools/page needs no more, since WebAssembly has addresses of 64 bits too. `narrow` writes a
module for a processor with addresses of 32 bits, for tools/mcu. `without_hints` makes the code smaller.

There numbers stay as they are, and so does each place in memory: a usize has 64 bits, and a pointer in memory takes
8 octets, as on x86-64. Of these the upper four are 0. So these lines change:

1. A slot for a pointer takes 8 octets.
2. A store of a pointer also stores four zero octets behind it. A load of a pointer takes the lower four octets, and
   stays as it is.
3. A load or a store of an aggregate becomes one for each of its fields, at the places of x86-64.
4. A pointer in a constant gets four zero octets behind it.
5. The sizes of memset and memmove are cut to 32 bits: nothing in memory is larger.
6. ptrtoaddr, which returns the bits of an address, becomes ptrtoint, which adds zeros.

`narrow` knows the whole form of each line. A line of another form is refused, even if only an alignment is missing.
All machines are little-endian.
"""

import re

from modules import Failure

# What the processor of the kit is told, and AddressSanitizer: words of attributes.
OF_PROCESSOR = r'"(?:probe-stack|stack-probe-size|target-cpu|target-features|tune-cpu|frame-pointer)"="[^"]*"'


def with_target(text, triple, layout):
    """Returns a module for another machine, by its triple and the layout that clang gives a module for it."""
    if "@llvm.x86." in text:
        raise Failure(70, "the module has instructions of x86-64 alone")
    text = re.sub(r'(?m)^target datalayout = ".*"$', f'target datalayout = "{layout}"', text)
    text = re.sub(r'(?m)^target triple = ".*"$', f'target triple = "{triple}"', text)
    text = re.sub(r"(?m)^attributes #\d+ = .*$", lambda it: re.sub(rf" (?:sanitize_address|{OF_PROCESSOR})", "", it[0]), text)
    return re.sub(r"(?m)^(attributes #\d+ =) \{ *\}$", r"\1 { nounwind }", text)


def without_hints(text):
    """Returns a module that leaves to the compiler which functions it copies into others."""
    text = re.sub(r"(?m)^attributes #\d+ = .*$", lambda it: re.sub(r" (?:alwaysinline|inlinehint)\b", "", it[0]), text)
    return re.sub(r"(?m)^(attributes #\d+ =) \{ *\}$", r"\1 { nounwind }", text)


def with_export(text, name, new=None):
    """Returns a module whose function of this name is external and has a new name, or else the same.

    In a module of a program the functions are internal, and have their paths as names.
    """
    new = new or name
    if not re.search(rf"(?m)^define [^\n]*@{name}\(", text):
        text = re.sub(rf'(?m)^define internal ([^\n]*)@"(?:\w+::)+{name}"\(', rf"define \1@{new}(", text)
        text = re.sub(rf'@"(?:\w+::)+{name}"\(', f"@{new}(", text)
    return text if name == new else re.sub(rf"@{name}\(", f"@{new}(", text)


def without_start(text):
    """Returns a module of a program without the function by which the system starts it, if there is one."""
    text = re.sub(r"(?m)^define i32 @main\(\)[^\n]*\{\n(?:[^}\n][^\n]*\n)*\}\n", "", text)
    return re.sub(r"(?m)^declare i64 @__sysv_signal\(i32, i64\)[^\n]*\n", "", text)


# Pieces of lines. A name in quotes has no quotes in it.
NAME = r'(?:[-\w.$]+|"[^"]+")'
LOCAL, GLOBAL, LABEL = f"%{NAME}", f"@{NAME}", f"label %{NAME}"
INT = r"i(?:1|8|16|32|64|128|256)"
# Whole octets in memory, in the same way on all machines.
MEMORY = r"(?:i(?:8|16|32|64|128)|double)"
LANES = r"<\d+ x i(?:8|16|32|64)>"
VECTOR = r"<\d+ x i(?:1|8|16|32|64)>"
NUMBER = r"(?:-?\d+|true|false)"
REAL = r"(?:-?\d+\.\d+e[-+]\d+|0x[0-9A-F]{16})"
SCALAR = rf"(?:{INT}|double|ptr)"
PAIR = rf"\{{ {SCALAR}(?:, {SCALAR})+ \}}"
TYPE = rf"(?:{SCALAR}|{VECTOR}|{PAIR})"
VALUE = rf"(?:{LOCAL}|{NUMBER}|{REAL}|null|poison)"
SPLAT = rf"splat \(i\d+ {NUMBER}\)"
LIST = rf"<{INT} {NUMBER}(?:, {INT} {NUMBER})*>"
LANE_VALUE = rf"(?:{LOCAL}|zeroinitializer|poison|{SPLAT}|{LIST})"
POINTER = rf"(?:{LOCAL}|{GLOBAL})"
ALIGN = r", align \d+"
FACTS = r"(?:, !(?:noundef|range|nonnull) !\d+)*"
GROUPS = r"(?: #\d+)*"
OF_VALUE = r"(?: (?:noundef|zeroext|signext|nonnull|noalias|readonly|writeonly|readnone|immarg|captures\(none\)))*"
ARGUMENT = rf"{TYPE}{OF_VALUE} (?:{VALUE}|{GLOBAL}|{LANE_VALUE})"
RESULT = rf"(?:void|{TYPE})"
COMPARED = r"(?:eq|ne|[su][lg][te])"

# What a module may call besides its own functions. Each means the same for each machine.
INTRINSICS = (
    r"llvm\.(?:trap|arithmetic\.fence\.f64|vector\.reduce\.(?:or|and)\.v\d+i\d+"
    r"|(?:ctlz|cttz|ctpop|bswap|fshl|fshr|umin|umax|smin|smax|abs|usub\.sat|uadd\.sat"
    r"|(?:[us](?:add|sub|mul))\.with\.overflow)\.i(?:8|16|32|64|128))"
)
HEAP = r"rattle_(?:alloc|realloc|dealloc)"

# Instructions that mean the same for each machine: by their word, what follows it.
KEPT = {
    "|".join("add sub mul shl".split()): rf"(?: nuw)?(?: nsw)? (?:{INT} {VALUE}, {VALUE}|{VECTOR} {LANE_VALUE}, {LANE_VALUE})",
    "udiv|sdiv|lshr|ashr": rf"(?: exact)? (?:{INT} {VALUE}, {VALUE}|{VECTOR} {LANE_VALUE}, {LANE_VALUE})",
    "and|or|xor|urem|srem": rf"(?: disjoint)? (?:{INT} {VALUE}, {VALUE}|{VECTOR} {LANE_VALUE}, {LANE_VALUE})",
    "icmp": rf"(?: samesign)? {COMPARED} (?:(?:{INT}|ptr) {VALUE}, {VALUE}|{VECTOR} {LANE_VALUE}, {LANE_VALUE})",
    "fadd|fsub|fmul|fdiv": rf" double {VALUE}, {VALUE}",
    "fneg": rf" double {VALUE}",
    "fcmp": rf" [ou](?:eq|ne|gt|ge|lt|le|rd|no) double {VALUE}, {VALUE}",
    "zext|sext|trunc": rf"(?: nneg)?(?: nuw)?(?: nsw)? (?:{INT} {VALUE} to {INT}|{VECTOR} {LANE_VALUE} to {VECTOR})",
    "bitcast": rf" (?:{INT} {VALUE} to (?:double|{VECTOR})|double {VALUE} to i64|{VECTOR} {LANE_VALUE} to (?:{INT}|{VECTOR}))",
    "uitofp|sitofp": rf"(?: nneg)? {INT} {VALUE} to double",
    "fptoui|fptosi": rf" double {VALUE} to {INT}",
    "select": rf" (?:i1 {VALUE}, {SCALAR} (?:{VALUE}|{GLOBAL}), {SCALAR} (?:{VALUE}|{GLOBAL})"
    rf"|{VECTOR} {LANE_VALUE}, {VECTOR} {LANE_VALUE}, {VECTOR} {LANE_VALUE})",
    "phi": rf" {SCALAR} \[ (?:{VALUE}|{GLOBAL}), %{NAME} \](?:, \[ (?:{VALUE}|{GLOBAL}), %{NAME} \])*",
    "freeze": rf" {SCALAR} {VALUE}",
    "extractvalue": rf" {PAIR} {LOCAL}, \d",
    "insertvalue": rf" {PAIR} {VALUE}, {SCALAR} (?:{VALUE}|{GLOBAL}), \d",
    "extractelement": rf" {VECTOR} {LANE_VALUE}, i(?:32|64) {VALUE}",
    "insertelement": rf" {VECTOR} {LANE_VALUE}, {INT} {VALUE}, i(?:32|64) {VALUE}",
    "shufflevector": rf" {VECTOR} {LANE_VALUE}, {VECTOR} {LANE_VALUE}, <\d+ x i32> {LANE_VALUE}",
    # An offset counts octets or numbers, never pointers.
    "getelementptr": rf"(?: inbounds)?(?: nusw)?(?: nuw)? i(?:8|16|32|64|128), ptr {POINTER}, i64 {VALUE}",
    "load": rf" (?:(?:{MEMORY}|{LANES}), ptr {POINTER}{ALIGN}|ptr, ptr {POINTER}, align [18]){FACTS}",
    "alloca": rf" (?:{MEMORY}|\[\d+ x i8\]){ALIGN}",
}
KEPT = {word: re.compile(rest) for words, rest in KEPT.items() for word in words.split("|")}
CALL = re.compile(rf"call{OF_VALUE} {RESULT} (@{NAME})\((?:{ARGUMENT}(?:, {ARGUMENT})*)?\){GROUPS}")
# Those that name no value, whole.
PLAIN = re.compile(
    rf"br (?:{LABEL}|i1 {VALUE}, {LABEL}, {LABEL})|unreachable|ret void|ret {TYPE} (?:{VALUE}|{GLOBAL}|{LANE_VALUE})"
    rf"|store (?:{MEMORY} {VALUE}|{LANES} {LANE_VALUE}), ptr {LOCAL}{ALIGN}|switch {INT} {VALUE}, {LABEL} \["
    rf"|  {INT} {NUMBER}, {LABEL}|\]"
)

# The lines that change.
SLOT = re.compile(rf"(  {LOCAL} = alloca) ptr({ALIGN})")
STORED_POINTER = re.compile(rf"  store ptr (?:{LOCAL}|{GLOBAL}|null), ptr ({LOCAL}), align ([18])")
STORED = re.compile(rf"  store ({PAIR}) ({LOCAL}), ptr ({LOCAL}), align (\d+)")
LOADED = re.compile(rf"  ({LOCAL}) = load ({PAIR}), ptr ({POINTER}), align (\d+)")
ADDRESS = re.compile(rf"(  {LOCAL} = )ptrtoaddr( ptr {POINTER} to i64)")
# The length is a number of 32 bits, or a value.
LENGTH = r"i64 (?:noundef )?(\d+|%[-\w.$]+)"
FILLED = re.compile(rf"  call void @llvm\.memset\.p0\.i64\((ptr (?:align \d+ )?{LOCAL}, i8 (?:{LOCAL}|-?\d+)), {LENGTH}, i1 false\)")
MOVED = re.compile(
    rf"  call void @llvm\.(memmove|memcpy)\.p0\.p0\.i64\((ptr (?:align \d+ )?{LOCAL}, ptr (?:align \d+ )?{POINTER}), {LENGTH}, i1 false\)"
)
DECLARED_FILL = re.compile(r"declare void @llvm\.memset\.p0\.i64\(ptr[^,]*, i8, i64, i1 immarg\)( #\d+)")
DECLARED_MOVE = re.compile(r"declare void @llvm\.(memmove|memcpy)\.p0\.p0\.i64\(ptr[^,]*, ptr[^,]*, i64, i1 immarg\)( #\d+)")
CONSTANT = re.compile(rf"({GLOBAL} = (?:private|internal)(?: unnamed_addr)? constant) <\{{ (.*) \}}> <\{{ (.*) \}}>({ALIGN})")
OCTETS = r'(?:c"[^"]*"|zeroinitializer)'
PLACE = rf"(?:{GLOBAL}|getelementptr \(i8, ptr {GLOBAL}, i64 \d+\)|getelementptr inbounds(?: nuw)? \(i8, ptr {GLOBAL}, i64 \d+\))"
KIND = re.compile(r"ptr|\[\d+ x i8\]|i(?:8|16|32|64)")
FIELD = re.compile(rf"(ptr|\[\d+ x i8\]|i(?:8|16|32|64)) ({PLACE}|{OCTETS}|-?\d+)(?:, |$)")

# The other lines.
DEFINED = re.compile(
    rf"define(?: internal)?(?: unnamed_addr)?{OF_VALUE} {RESULT} {GLOBAL}"
    rf"\((?:{TYPE}{OF_VALUE} {LOCAL}(?:, {TYPE}{OF_VALUE} {LOCAL})*)?\){GROUPS} \{{"
)
DECLARED = re.compile(rf"declare {RESULT} @(?:{INTRINSICS}|{HEAP})\((?:{TYPE}{OF_VALUE}(?:, {TYPE}{OF_VALUE})*)?\){GROUPS}")
WORDS = (
    r"(?:alwaysinline|cold|inlinehint|nobuiltin|nocallback|nocreateundeforpoison|nofree|noinline|norecurse|noreturn|nosync"
    r"|nounwind|speculatable|willreturn|memory\((?:none|read|argmem: read|argmem: write|argmem: readwrite|inaccessiblemem: write)\))"
)
OTHERS = re.compile(
    rf'source_filename = ".*"|target (?:datalayout|triple) = ".*"|attributes #\d+ = \{{(?: {WORDS})+ \}}'
    rf"|{GLOBAL} = (?:private|internal)(?: unnamed_addr)? constant \[\d+ x i8\] {OCTETS}{ALIGN}"
    r'|!llvm\.ident = !\{!\d+\}|!\d+ = !\{(?:i\d+ \d+(?:, i\d+ \d+)*|!"[^"]*")?\}|;.*|'
)
BEGUN = re.compile(rf"(?:[-\w.$]+|\"[^\"]+\"):(?: +; (?:preds = .*|No predecessors!))?")
NAMED = re.compile(rf"  (?:{LOCAL} = )?([a-z]+)")

# The octets of a field in memory, and its alignment, which is the same.
SIZES = {"i8": 1, "i16": 2, "i32": 4, "i64": 8, "i128": 16, "double": 8, "ptr": 8}


class Narrowed:
    """The lines that are written, and the names of values that are added."""

    def __init__(self):
        self.count = 0

    def fresh(self):
        self.count += 1
        return f"%narrow.{self.count}"

    def at(self, place, offset):
        """Returns lines that work out a place, and its name."""
        if offset == 0:
            return [], place
        name = self.fresh()
        return [f"  {name} = getelementptr i8, ptr {place}, i32 {offset}"], name

    def zeros(self, place, align, offset=0):
        """Returns lines that store the upper half of a pointer, by the alignment and the offset of the pointer."""
        lines, name = self.at(place, offset + 4)
        return [*lines, f"  store i32 0, ptr {name}, align {min(align, 4)}"]

    def stored(self, pair, value, place, align):
        lines = []
        for number, (kind, offset) in enumerate(fields(pair)):
            part = self.fresh()
            before, there = self.at(place, offset)
            lines += [f"  {part} = extractvalue {pair} {value}, {number}", *before]
            lines.append(f"  store {kind} {part}, ptr {there}, align {min(align, SIZES[kind])}")
            lines += self.zeros(place, align, offset) if kind == "ptr" else []
        return lines

    def loaded(self, name, pair, place, align):
        lines, value, places = [], "poison", fields(pair)
        for number, (kind, offset) in enumerate(places):
            part, new = self.fresh(), name if number == len(places) - 1 else self.fresh()
            before, there = self.at(place, offset)
            lines += [*before, f"  {part} = load {kind}, ptr {there}, align {min(align, SIZES[kind])}"]
            lines.append(f"  {new} = insertvalue {pair} {value}, {kind} {part}, {number}")
            value = new
        return lines

    def length(self, text):
        """Returns lines that cut a length to 32 bits, and the length. A number that needs more is no length."""
        if text[0] != "%":
            return ([], text) if int(text) < 2**31 else None
        name = self.fresh()
        return [f"  {name} = trunc i64 {text} to i32"], name

    def inside(self, line):
        """Returns the lines for a line of a function, or None if its form is not known."""
        word = NAMED.match(line)
        change = self.changes.get(word[1]) if word else None
        new = change(self, line) if change else None
        return new or ([line] if is_kept(line, word) else None)

    def of_alloca(self, line):
        found = SLOT.fullmatch(line)
        return found and [f"{found[1]} [8 x i8]{found[2]}"]

    def of_store(self, line):
        if found := STORED_POINTER.fullmatch(line):
            return [line, *self.zeros(found[1], int(found[2]))]
        found = STORED.fullmatch(line)
        return found and fields(found[1]) and self.stored(found[1], found[2], found[3], int(found[4]))

    def of_load(self, line):
        found = LOADED.fullmatch(line)
        return found and fields(found[2]) and self.loaded(found[1], found[2], found[3], int(found[4]))

    def of_ptrtoaddr(self, line):
        found = ADDRESS.fullmatch(line)
        return found and [f"{found[1]}ptrtoint{found[2]}"]

    def of_call(self, line):
        if found := FILLED.fullmatch(line):
            cut = self.length(found[2])
            return cut and [*cut[0], f"  call void @llvm.memset.p0.i32({found[1]}, i32 {cut[1]}, i1 false)"]
        if found := MOVED.fullmatch(line):
            cut = self.length(found[3])
            return cut and [*cut[0], f"  call void @llvm.{found[1]}.p0.p0.i32({found[2]}, i32 {cut[1]}, i1 false)"]
        return None

    # What may change, by the word of the instruction.
    changes = {"alloca": of_alloca, "store": of_store, "load": of_load, "ptrtoaddr": of_ptrtoaddr, "call": of_call}

    def outside(self, line):
        """Returns the lines for a line between functions, or None if its form is not known."""
        if found := CONSTANT.fullmatch(line):
            constant = widened(found[2], found[3])
            return constant and [f"{found[1]} {constant}{found[4]}"]
        if found := DECLARED_FILL.fullmatch(line):
            return [f"declare void @llvm.memset.p0.i32(ptr, i8, i32, i1 immarg){found[1]}"]
        if found := DECLARED_MOVE.fullmatch(line):
            return [f"declare void @llvm.{found[1]}.p0.p0.i32(ptr, ptr, i32, i1 immarg){found[2]}"]
        return [line] if DEFINED.fullmatch(line) or DECLARED.fullmatch(line) or OTHERS.fullmatch(line) else None


def is_kept(line, word):
    """Tells whether a line of a function, with its word, means the same for each machine."""
    if word and word[1] == "call":
        called = CALL.fullmatch(line, word.start(1))
        return bool(called and (not called[1].startswith("@llvm.") or re.fullmatch(INTRINSICS, called[1][1:])))
    if word and word[1] in KEPT and " = " in line:
        return bool(KEPT[word[1]].fullmatch(line, word.end(1)))
    return bool(line.startswith("  ") and PLAIN.fullmatch(line, 2) or BEGUN.fullmatch(line) or line == "")


def fields(pair):
    """Returns the fields of an aggregate, each with its place on x86-64, or None if one has another form in memory."""
    found, at = [], 0
    for kind in pair.strip("{ }").split(", "):
        if kind not in SIZES:
            return None
        at = (at + SIZES[kind] - 1) // SIZES[kind] * SIZES[kind]
        found.append((kind, at))
        at += SIZES[kind]
    return found


def widened(kinds, values):
    """Returns a constant whose pointers have four zero octets behind them, or None if a field is not known."""
    kinds, found, at = kinds.split(", "), [], 0
    while at < len(values) and (field := FIELD.match(values, at)):
        found.append(field)
        at = field.end()
    is_whole = at == len(values) and [it[1] for it in found] == kinds and all(map(KIND.fullmatch, kinds))
    if not is_whole or any((it[1] == "ptr") != bool(re.fullmatch(PLACE, it[2])) for it in found):
        return None
    new_kinds = ", ".join(f"{it}, [4 x i8]" if it == "ptr" else it for it in kinds)
    new = ", ".join(f"{it[1]} {it[2]}" + (", [4 x i8] zeroinitializer" if it[1] == "ptr" else "") for it in found)
    return f"<{{ {new_kinds} }}> <{{ {new} }}>"


def narrow(text):
    """Returns the text of a module for addresses of 32 bits. Its target is set by with_target, before.

    Errors: Failure, with the number and the text of a line whose form is not known.
    """
    narrowed, lines, is_inside = Narrowed(), [], False
    for number, line in enumerate(text.splitlines(), 1):
        if is_inside and line == "}":
            is_inside, new = False, [line]
        else:
            new = narrowed.inside(line) if is_inside else narrowed.outside(line)
            is_inside = is_inside or line.startswith("define ")
        if new is None:
            raise Failure(70, f"line {number} of the module has a form that is not known here: {line[:300].strip()}")
        lines += new
    return "\n".join(lines) + "\n"
