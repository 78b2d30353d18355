"""A second assembler, written only from the manual's chapter about the assembler. It returns a program's bytes or its errors, and the answers to
`map` and `errors`. It shares no code with the bench."""

import re

CODES_WITHOUT_OPERAND = {
         "NOP": 0x00, "WRM": 0xE0, "WMP": 0xE1, "WRR": 0xE2, "WR0": 0xE4, "WR1": 0xE5, "WR2": 0xE6, "WR3": 0xE7, "SBM": 0xE8, "RDM": 0xE9,
         "RDR": 0xEA, "ADM": 0xEB, "RD0": 0xEC, "RD1": 0xED, "RD2": 0xEE, "RD3": 0xEF, "CLB": 0xF0, "CLC": 0xF1, "IAC": 0xF2, "CMC": 0xF3,
         "CMA": 0xF4, "RAL": 0xF5, "RAR": 0xF6, "TCC": 0xF7, "DAC": 0xF8, "TCS": 0xF9, "STC": 0xFA, "DAA": 0xFB, "KBP": 0xFC, "DCL": 0xFD}
CODES_ON_REGISTER = {"INC": 0x60, "ADD": 0x80, "SUB": 0x90, "LD": 0xA0, "XCH": 0xB0}
CODES_ON_PAIR = {"SRC": 0x21, "FIN": 0x30, "JIN": 0x31}
# The instructions with values: the register kind before the values (P for a pair, R for a register), the code, and the maximum of each value.
CODES_WITH_VALUES = {"LDM": ("", 0xD0, [15]), "BBL": ("", 0xC0, [15]), "JUN": ("", 0x40, [4095]), "JMS": ("", 0x50, [4095]),
               "FIM": ("P", 0x20, [255]), "ISZ": ("R", 0x70, [4095]), "JCN": ("", 0x10, [15, 4095])}
REGISTERS = {f"R{k}": k for k in range(16)}
PAIRS = {f"P{k}": k for k in range(8)}
RESERVED_WORDS = {*CODES_WITHOUT_OPERAND, *CODES_ON_REGISTER, *CODES_ON_PAIR, *CODES_WITH_VALUES, "WPM", "ORG", "DB", *REGISTERS, *PAIRS}
ADDRESS_COUNT = 4096
MAX_NAMES = 512
# The maximum number of errors in an answer.
MAX_ERRORS = 100


class ProgramError(Exception):
    """An error in a program, with the error's number in the manual and the number of the wrong line, from 1 (0 if no single line is
    wrong)."""


def number_of(word):
    """Returns the value of a decimal or hexadecimal number, or None if the word is not a number."""
    if re.fullmatch("0x[0-9a-fA-F]+", word):
        return int(word, 16)
    return int(word) if re.fullmatch("[0-9]+", word) else None


def is_name(word):
    """Returns true if a word can be the name of a label or of a number."""
    return re.fullmatch("[A-Za-z_][A-Za-z0-9_]{0,15}", word) is not None and word.upper() not in RESERVED_WORDS


def tokens_of(line):
    """Returns the tokens of a line without its comment: words, the signs `,`, `:` and `=`, and `?` for any other character."""
    return [token if re.match("[A-Za-z0-9_,:=]", token) else "?" for token in re.findall(r"[A-Za-z0-9_]+|[^ \t]", line.split(";")[0])]


def values_of(words):
    """Converts each word that is a number to an integer, and leaves each name as it is. Returns None if any word is neither."""
    values = [number if (number := number_of(word)) is not None else word if is_name(word) else None for word in words]
    return None if None in values else values


def parse_statement(words):
    """Parses a statement. Returns None if the words are not a statement. Otherwise returns `ORG` and an address, `DB` and a list of values, or
    `CODE` and the code of an instruction without values. For an instruction with values, returns its mnemonic, its code, and the list of values."""
    name, operand_tokens = words[0].upper(), words[1:]
    if name in CODES_WITHOUT_OPERAND:
        return ("CODE", CODES_WITHOUT_OPERAND[name]) if not operand_tokens else None
    if len(operand_tokens) % 2 == 0 or any(comma != "," for comma in operand_tokens[1::2]):
        return None
    operands = operand_tokens[::2]
    register_name = operands[0].upper()
    if name == "ORG":
        target = number_of(operands[0])
        return ("ORG", target) if len(operands) == 1 and target is not None else None
    if name == "DB":
        return ("DB", values) if (values := values_of(operands)) else None
    if name in CODES_ON_REGISTER:
        return ("CODE", CODES_ON_REGISTER[name] + REGISTERS[register_name]) if len(operands) == 1 and register_name in REGISTERS else None
    if name in CODES_ON_PAIR:
        return ("CODE", CODES_ON_PAIR[name] + 2 * PAIRS[register_name]) if len(operands) == 1 and register_name in PAIRS else None
    if name not in CODES_WITH_VALUES:
        return None
    register_kind, code, maxima = CODES_WITH_VALUES[name]
    if register_kind:
        register_number = (PAIRS if register_kind == "P" else REGISTERS).get(register_name)
        if register_number is None:
            return None
        code += register_number * (2 if register_kind == "P" else 1)
        operands = operands[1:]
    values = values_of(operands)
    return (name, code, values) if values is not None and len(values) == len(maxima) else None


def parse_line(line):
    """Parses a line. Returns `=`, a name and its number for a definition; otherwise `:`, a label and a statement, which can both be None. Returns
    None if the syntax is wrong."""
    words = tokens_of(line)
    if len(words) == 3 and words[1] == "=":
        return ("=", words[0], number_of(words[2])) if is_name(words[0]) and number_of(words[2]) is not None else None
    label = None
    if len(words) > 1 and words[1] == ":":
        if not is_name(words[0]):
            return None
        label, words = words[0], words[2:]
    if not words:
        return (":", label, None)
    parsed = parse_statement(words)
    return (":", label, parsed) if parsed else None


def size_of(parsed):
    """Returns the number of bytes of a parsed statement, or 0 if `parsed` is None."""
    if parsed is None or parsed[0] == "ORG":
        return 0
    if parsed[0] == "DB":
        return len(parsed[1])
    return 1 if parsed[0] in ("CODE", "LDM", "BBL") else 2


class FirstPass:
    """The first pass: the statements read so far, with their addresses, and the values of the names."""

    def __init__(self):
        self.address, self.rows, self.names = 0, [], {}

    def read(self, line):
        """Reads the next line. Raises ProgramError if the line is wrong, by itself or because of the lines before it."""
        number = len(self.rows) + 1
        parsed_line = parse_line(line)
        if parsed_line is None:
            raise ProgramError(30, number)
        sign, name, parsed = parsed_line
        target = parsed if sign == "=" else parsed[1] if parsed and parsed[0] == "ORG" else 0
        if target >= ADDRESS_COUNT:
            raise ProgramError(33, number)
        if name in self.names:
            raise ProgramError(31, number)
        if name is not None and len(self.names) == MAX_NAMES:
            raise ProgramError(37, number)
        if sign == "=":
            self.names[name] = parsed
            self.rows.append((self.address, None))
            return
        if name is not None and self.address == ADDRESS_COUNT or self.address + size_of(parsed) > ADDRESS_COUNT:
            raise ProgramError(36, number)
        if name is not None:
            self.names[name] = self.address
        self.rows.append((self.address, parsed))
        self.address = parsed[1] if parsed and parsed[0] == "ORG" else self.address + size_of(parsed)

    def skip(self):
        """Counts the next line as an empty line, because it has an error."""
        self.rows.append((self.address, None))


def bytes_of(address, parsed, names, number):
    """Returns the bytes of a parsed statement at an address, or none if `parsed` is None. Raises ProgramError with the line `number` if a value is
    wrong."""
    if parsed is None or parsed[0] == "ORG":
        return []
    if parsed[0] == "CODE":
        return [parsed[1]]
    values = []
    for value in parsed[-1]:
        if isinstance(value, str) and value not in names:
            raise ProgramError(32, number)
        values.append(names[value] if isinstance(value, str) else value)
    maxima = [255] * len(values) if parsed[0] == "DB" else CODES_WITH_VALUES[parsed[0]][2]
    if any(value > maximum for value, maximum in zip(values, maxima)):
        raise ProgramError(33, number)
    if parsed[0] == "DB":
        return values
    name, code, last_value = parsed[0], parsed[1], values[-1]
    if name in ("JCN", "ISZ") and last_value // 256 != (address + 2) % ADDRESS_COUNT // 256:
        raise ProgramError(34, number)
    if name in ("LDM", "BBL"):
        return [code + last_value]
    if name in ("JUN", "JMS"):
        return [code + last_value // 256, last_value % 256]
    return [code + values[0] if name == "JCN" else code, last_value % 256]


class SecondPass:
    """The second pass: the assembled bytes by address, and the address and number of bytes of each line."""

    def __init__(self, names):
        self.bytes, self.spans, self.names = {}, [], names

    def read(self, address, statement):
        """Assembles the statement of the next line (None for a line without one) at an address. Raises ProgramError if the statement is wrong."""
        number = len(self.spans) + 1
        statement_bytes = bytes_of(address, statement, self.names, number)
        if any(address + i in self.bytes for i in range(len(statement_bytes))):
            raise ProgramError(35, number)
        self.bytes.update({address + i: byte for i, byte in enumerate(statement_bytes)})
        self.spans.append((address, len(statement_bytes)))


def assemble(lines):
    """Returns the bytes by address, each line's address and number of bytes, and the names with their values. Raises ProgramError for the first
    error."""
    first_pass = FirstPass()
    for line in lines:
        first_pass.read(line)
    second_pass = SecondPass(first_pass.names)
    for address, parsed in first_pass.rows:
        second_pass.read(address, parsed)
    return second_pass.bytes, second_pass.spans, second_pass.names


def errors_of(lines):
    """Returns a pair of an error number and a line number for each error. The errors of the second pass are included only if the first pass found
    none."""
    first_pass, errors = FirstPass(), []
    for line in lines:
        try:
            first_pass.read(line)
        except ProgramError as error:
            errors.append(error.args)
            first_pass.skip()
    if errors:
        return errors
    second_pass = SecondPass(first_pass.names)
    for address, parsed in first_pass.rows:
        try:
            second_pass.read(address, parsed)
        except ProgramError as error:
            errors.append(error.args)
            second_pass.spans.append((address, 0))
    return errors


def check_text(lines):
    """Raises ProgramError if the text or a line is too long, or has a character that is not allowed."""
    if sum(len(line) + 1 for line in lines) > 16384:
        raise ProgramError(13, 0)
    if any(len(line) > 255 for line in lines):
        raise ProgramError(12, 0)
    if any(character != "\t" and not 32 <= ord(character) < 127 for line in lines for character in line):
        raise ProgramError(14, 0)


def map_of(lines):
    """Returns the answer to `map` for a program, line by line."""
    try:
        check_text(lines)
        _image, spans, names = assemble(lines)
    except ProgramError as error:
        return [refusal_of(error)]
    answer_lines = [f"map lines {len(spans)} names {len(names)}"]
    answer_lines += [f"line {number} {address:03X} {size}" for number, (address, size) in enumerate(spans, 1)]
    return answer_lines + [f"name {name} {value:03X}" for name, value in names.items()]


def errors_answer(lines):
    """Returns the answer to `errors` for a program, line by line."""
    try:
        check_text(lines)
    except ProgramError as error:
        return [refusal_of(error)]
    errors = errors_of(lines)[:MAX_ERRORS]
    return [f"errors {len(errors)}", *(f"error {line} {number}" for number, line in errors)]


def refusal_of(error):
    """Returns the answer `no NN` for an error, with its line number unless that is 0."""
    number, line = error.args
    return f"no {number} line {line}" if line else f"no {number}"
