"""The words of a text for Copper lists: numbers, sums in parentheses, and registers."""
from __future__ import annotations

import ast
import operator
import re

from registers import all_registers

Names = dict[str, int]
NAME = re.compile(r"[A-Za-z_][A-Za-z0-9_]*")
HEXADECIMAL = re.compile(r"[0-9a-fA-F]{1,6}")
DECIMAL = re.compile(r"[0-9]{1,9}")
# a number of hexadecimal digits in a sum
MARKED = re.compile(r"\$([0-9a-fA-F]{1,8})")
MOST_SUM, GREATEST = 200, 1 << 40
OPERATORS = {
    ast.Add: operator.add, ast.Sub: operator.sub, ast.Mult: operator.mul, ast.Div: operator.floordiv,
    ast.Mod: operator.mod, ast.BitAnd: operator.and_, ast.BitOr: operator.or_,
}
REGISTERS = {register.name: register.offset for register in all_registers()}
# a pointer's name without H and L stands for both halves, the high one first
POINTERS = {name[:-1]: offset for name, offset in REGISTERS.items() if name.endswith("H") and name[:-1] + "L" in REGISTERS}


def is_name(text: str) -> bool:
    return bool(NAME.fullmatch(text))


def is_hexadecimal(text: str) -> bool:
    """Whether a word is read as a number of hexadecimal digits where one is wanted."""
    return bool(HEXADECIMAL.fullmatch(text))


def split(line: str) -> list[str]:
    """The words of a line without its comment; a sum in parentheses is one word."""
    text = re.split("[;#]", line, maxsplit=1)[0]
    words, depth = [""], 0
    for one in text:
        depth += (one == "(") - (one == ")")
        if one.isspace() and depth <= 0:
            words.append("")
        elif not one.isspace():
            words[-1] += one
    return [word for word in words if word]


def sum_of(text: str, names: Names) -> int:
    """The value of a sum of decimal numbers, `$` with hexadecimal digits, and names."""
    try:
        if len(text) > MOST_SUM:
            raise SyntaxError
        return value_of(ast.parse(MARKED.sub(r"0x\1", text), mode="eval").body, names, text)
    except (SyntaxError, ZeroDivisionError, RecursionError):
        raise ValueError(f"'{text}' is no sum") from None


def value_of(node: ast.AST, names: Names, text: str) -> int:
    """The value of a part of a sum."""
    if isinstance(node, ast.Constant) and type(node.value) is int:
        value = node.value
    elif isinstance(node, ast.Name):
        if node.id not in names:
            raise ValueError(f"'{node.id}' in {text} is no name of a repeat around it")
        value = names[node.id]
    elif isinstance(node, ast.UnaryOp) and isinstance(node.op, ast.USub):
        value = -value_of(node.operand, names, text)
    elif isinstance(node, ast.BinOp) and type(node.op) in OPERATORS:
        value = OPERATORS[type(node.op)](value_of(node.left, names, text), value_of(node.right, names, text))
    else:
        raise SyntaxError
    if abs(value) > GREATEST:
        raise ValueError(f"{text} is too great")
    return value


def within(value: int, what: str, most: int, text: str) -> int:
    if not 0 <= value <= most:
        raise ValueError(f"the {what} {text} is {value}, not 0 to {most}")
    return value


def decimal(text: str, what: str, most: int, names: Names) -> int:
    """A decimal number, a name, or a sum in parentheses; at most `most`."""
    if text.startswith("(") or text in names:
        return within(sum_of(text, names), what, most, text)
    if not DECIMAL.fullmatch(text):
        raise ValueError(f"the {what} '{text}' is no decimal number, and no sum in parentheses")
    return within(int(text), what, most, text)


def hexadecimal(text: str, what: str, most: int, names: Names) -> int:
    """A number of hexadecimal digits, a name, or a sum in parentheses; at most `most`."""
    if text.startswith("(") or text in names:
        return within(sum_of(text, names), what, most, text)
    if not HEXADECIMAL.fullmatch(text):
        raise ValueError(f"the {what} '{text}' is no hexadecimal number, and no sum in parentheses")
    if int(text, 16) > most:
        raise ValueError(f"the {what} {text} is above {most:x}")
    return int(text, 16)


def register(text: str) -> tuple[int, bool]:
    """A register's offset by its name or its three digits, and whether the name is that of both halves of a pointer."""
    name = re.sub(r"^COLOR(\d)$", r"COLOR0\1", text.upper())
    if name in POINTERS:
        return POINTERS[name], True
    if name in REGISTERS:
        return REGISTERS[name], False
    if not re.fullmatch("[01][0-9a-fA-F]{2}", text):
        raise ValueError(f"'{text}' is no register: a name as COLOR00, or three hexadecimal digits")
    if int(text, 16) % 2:
        raise ValueError(f"the register {text} is odd")
    return int(text, 16), False
