#!/usr/bin/env python3
"""What a lexer has to answer, computed from the rules of docs/texts.md alone, for texts that chance puts together.

At each place the longest of all tokens is taken, each kind by an expression of its own; there is no state but the
place. Typedef names are found in the list of tokens, by looking for the semicolon of each `typedef`.

    tools/tokens.py SEED COUNT

prints COUNT rows of Rust: a text and what is wanted of it, which is either each token as
CLASS.START.LENGTH.LINE.COLUMN, or the first fault.
"""
import random
import re
import sys

KEYWORDS = """static extern inline _Thread_local const volatile _Atomic typedef void char short int long signed
    unsigned _Bool struct enum if else while do for switch case default break continue return sizeof""".split()
SAME = {"thread_local": "_Thread_local", "bool": "_Bool"}
TYPES = """mtx_t cnd_t thrd_t tss_t size_t ptrdiff_t int8_t int16_t int32_t int64_t uint8_t uint16_t uint32_t uint64_t
    atomic_bool atomic_char atomic_schar atomic_uchar atomic_short atomic_ushort atomic_int atomic_uint atomic_long
    atomic_ulong atomic_llong atomic_ullong""".split()
NAMED = """goto union float double _Complex _Imaginary _Generic _Alignas _Alignof _Static_assert static_assert
    _Noreturn restrict register auto asm __asm __asm__ __attribute__ __extension__ call_once once_flag ONCE_FLAG_INIT
    thrd_current thrd_equal atomic_flag atomic_flag_test_and_set atomic_flag_clear atomic_thread_fence
    atomic_signal_fence atomic_is_lock_free kill_dependency ATOMIC_VAR_INIT malloc calloc realloc free setjmp longjmp
    signal offsetof ...""".split()
PUNCTUATORS = """[ ] ( ) { } . -> ++ -- & * + - ~ ! / % << >> < > <= >= == != ^ | && || ? : ; = *= /= %= += -= <<=
    >>= &= ^= |= ,""".split()
IDENTIFIER, TYPEDEF_NAME, LIBRARY_TYPE, NAMED_CONSTRUCT, CONSTANT = range(5)
NUMBERS = {word: 5 + i for i, word in enumerate(KEYWORDS + PUNCTUATORS)}

WORD = re.compile(r"[A-Za-z_][A-Za-z0-9_]*")
HEXADECIMAL = re.compile(r"0[xX](?:[A-Za-z0-9_.]|(?<=[pP])[+-])*")
NUMBER = re.compile(r"\.?[0-9](?:[A-Za-z0-9_.]|(?<=[eEpP])[+-])*")
CHARACTER = re.compile(r"'(?:[ -&(-\[\]-~]|\\[ntr0\\'\"])'")
LINE_MARK = re.compile(r"#(?:[ \t]*[0-9]|[ \t]*line[ \t]+[0-9])[^\n]*")
INCLUDE = re.compile(r"#[ \t]*include[ \t]*<(?:threads|stdatomic|stdint|stdbool|stddef)\.h>")
OTHER_LINE = re.compile(r"#[ \t]*([A-Za-z_][A-Za-z0-9_]*)?")
INTEGER = re.compile(r"(?:0[xX]([0-9a-fA-F]+)|(0[0-7]*)|([1-9][0-9]*))([uU]?(?:l|L|ll|LL)?|(?:l|L|ll|LL)[uU])")


def is_integer(text):
    """Whether a number that is not floating has a form, and its value a type where int has 32 and long 64 bits."""
    found = INTEGER.fullmatch(text)
    if not found:
        return False
    hexadecimal, octal, decimal, suffix = found.groups()
    value = int(hexadecimal, 16) if hexadecimal else int(octal, 8) if octal else int(decimal)
    signed_only = decimal is not None and "u" not in suffix.lower()
    return value < (2**63 if signed_only else 2**64)


def is_floating(text):
    return "." in text or bool(re.search("[pP]" if text[:2] in ("0x", "0X") else "[eE]", text))


def closing_quote(text, start):
    """The place of the next such quote in the line that has no backslash directly before it."""
    for at in range(start + 1, len(text)):
        if text[at] == "\n":
            return None
        if text[at] == text[start] and (text[at - 1] != "\\" or at - 1 == start):
            return at
    return None


def class_of(text):
    if text in NAMED:
        return NAMED_CONSTRUCT
    if text in TYPES:
        return LIBRARY_TYPE
    return NUMBERS.get(SAME.get(text, text), IDENTIFIER)


def place(text, at):
    return text.count("\n", 0, at) + 1, at - (text.rfind("\n", 0, at) + 1) + 1


class Fault(Exception):
    pass


def piece(text, at):
    """What stands at a place: its end, and the class of a token, or None where it is passed over."""
    def fault(code, name):
        line, column = place(text, at)
        raise Fault(f"U{code} {line}:{column} {name}")

    rest = text[at]
    if rest in " \t\n\r\v\f":
        return at + 1, None
    if text.startswith("//", at):
        end = text.find("\n", at)
        return (len(text) if end < 0 else end), None
    if text.startswith("/*", at):
        end = text.find("*/", at + 2)
        return (end + 2, None) if end >= 0 else fault(2, "comment")
    if rest == "#" and not text[text.rfind("\n", 0, at) + 1 : at].strip(" \t"):
        found = LINE_MARK.match(text, at) or INCLUDE.match(text, at)
        return (found.end(), None) if found else fault(3, OTHER_LINE.match(text, at).group(1) or "-")
    if rest == '"':
        end = closing_quote(text, at)
        return (end + 1, NAMED_CONSTRUCT) if end else fault(2, "literal")
    if rest == "'":
        found = CHARACTER.match(text, at)
        if found:
            return found.end(), CONSTANT
        return fault(4 if closing_quote(text, at) else 2, "literal")
    found = HEXADECIMAL.match(text, at) or NUMBER.match(text, at)
    if found:
        number = found.group()
        if is_floating(number):
            return found.end(), NAMED_CONSTRUCT
        return (found.end(), CONSTANT) if is_integer(number) else fault(4, "literal")
    found = WORD.match(text, at)
    if found:
        return found.end(), class_of(found.group())
    longest = max((p for p in PUNCTUATORS + ["..."] if text.startswith(p, at)), key=len, default=None)
    if longest is None:
        fault(1, "byte-%02x" % ord(rest))
    return at + len(longest), class_of(longest)


def typedef_ends(tokens, spelled):
    """The numbers of the semicolons that end a `typedef`, each with the name before it."""
    at = 0
    while at < len(tokens):
        if spelled[at] == "typedef":
            depth = 0
            for end in range(at + 1, len(tokens)):
                if spelled[end] == ";" and depth == 0:
                    break
                depth += spelled[end] in ("(", "[", "{")
                depth = max(0, depth - (spelled[end] in (")", "]", "}")))
            else:
                return
            if end - 1 > at:
                yield end, end - 1
            at = end
        at += 1


def answer(text):
    tokens, at = [], 0
    try:
        while at < len(text):
            end, number = piece(text, at)
            if number is not None:
                tokens.append([number, at, end - at, *place(text, at)])
            at = end
    except Fault as fault:
        return str(fault)
    spelled = [text[t[1] : t[1] + t[2]] for t in tokens]
    for end, name in typedef_ends(tokens, spelled):
        if tokens[name][0] == IDENTIFIER:
            for k in range(end + 1, len(tokens)):
                if spelled[k] == spelled[name]:
                    tokens[k][0] = TYPEDEF_NAME
    return " ".join(".".join(map(str, t)) for t in tokens)


FRAGMENTS = """a b _x1 ab typedef typedef int struct static mtx_t goto NULL if ( ) { } [ ] ; ; ; , . .. ... + - ++ -> &
    && | = == <= << <<= >>= >= > < ! != * *= / /* */ // " ' \\ # include <threads.h> <stdio.h> line define 7 0 08 0x
    1e 1. .5 0x1p 2147483648 18446744073709551615 u L ll UL 'a' '\\n' "s" '' $ @ ~ ? : ^ % e E p P""".split()
DECLARATIONS = "typedef typedef int a a b b ; ; ; ( ) [ ] { } NULL goto 1 mtx_t".split()
BLANKS = [" ", " ", " ", "\t", "\n", "\n", "\r", "\f"]


def rust(text):
    """The text as it stands in a Rust literal."""
    plain = {"\n": "\\n", "\t": "\\t", "\r": "\\r", "\\": "\\\\", '"': '\\"', "\f": "\\x0c", "\v": "\\x0b"}
    return "".join(plain.get(c, c) for c in text)


def some_text(chance):
    """A text of fragments, or one time in three of declarations."""
    if chance.random() < 0.33:
        return " ".join(["typedef"] + chance.choices(DECLARATIONS, k=chance.randint(3, 14)))
    pieces = chance.choices(FRAGMENTS, k=chance.randint(1, 9))
    return "".join(p + (chance.choice(BLANKS) if chance.random() < 0.45 else "") for p in pieces)


def main():
    chance = random.Random(int(sys.argv[1]))
    rows, wanted = set(), int(sys.argv[2])
    while len(rows) < wanted:
        text = some_text(chance)
        # most of what chance puts together has a fault early on
        if answer(text)[:1] != "U" or chance.random() < 0.25:
            rows.add(text)
    for text in sorted(rows):
        print(f"{rust(text)}\\x1f{answer(text)}\\x1e\\")


if __name__ == "__main__":
    main()
