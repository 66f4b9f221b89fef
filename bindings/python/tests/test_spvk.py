"""The calls of spvk.py, on the modules and the cases of tests/ at the top of the repository.

    SPVK_LIBRARY=out/libspvk.so.1.2.0 PYTHONPATH=bindings/python python3 -m unittest discover bindings/python/tests
"""

import dataclasses
import gc
import json
import re
import threading
import unittest
from pathlib import Path

import spvk

TOP = Path(__file__).resolve().parents[3]
ROWS = TOP / "crates/spv_rows"
ANSWER = re.compile(rb"== (.*): exit (\d), out (\d+), err (\d+), made (\d+)\n")


def read(name):
    """The bytes of a file of tests/."""
    return (TOP / "tests" / name).read_bytes()


def verdict_answer(verdict, text):
    """A verdict as the exit status, both outputs and the made file of a run."""
    return (0 if verdict.is_valid else 1, text.encode(), b"", b"")


def by_check(**how):
    """What `spv check` gives."""

    def answer(grammar, module):
        verdict = grammar.check(module, **how)
        return verdict_answer(verdict, f"{verdict}\n")

    return answer


def by_explain(**how):
    """What `spv explain` gives."""
    return lambda grammar, module: verdict_answer(*grammar.explain(module, **how))


def by_show(grammar, module):
    """What `spv show` gives."""
    try:
        return (0, grammar.show(module).encode(), b"", b"")
    except spvk.ModuleFault as fault:
        return (1, f"{fault}\n".encode(), b"", b"")


def by_assemble(big):
    """What `spv asm` gives."""

    def answer(grammar, text):
        try:
            return (0, b"", b"", grammar.assemble(text, big=big))
        except spvk.TextFault as fault:
            return (1, f"{fault}\n".encode(), b"", b"")
        except spvk.NotText:
            return (2, b"", b"error file\n", b"")

    return answer


CALLS = {
    "check --grammar G F": by_check(),
    "check --extended --grammar G F": by_check(extended=True),
    "explain --grammar G F": by_explain(),
    "explain --extended --grammar G F": by_explain(extended=True),
    "show --grammar G F": by_show,
    "asm --grammar G --out O F": by_assemble(big=False),
    "asm --grammar G --out O --big F": by_assemble(big=True),
}


def rows():
    """The stored runs: the grammar file, the name, the words and the input of each."""
    grammar, old, name, words, given = b"", b"", "", [], b""
    for line in (ROWS / "data/rows").read_bytes().decode().split("\n"):
        key, _, text = line.partition(" ")
        if key == "profile":
            grammar = read("profile.json")
        elif key == "old":
            old = text.encode()
        elif key == "new":
            grammar = b" ".join(grammar.split()).replace(old, text.encode())
        elif key == "grammar":
            grammar = text.encode()
        elif key == "grammar-hex":
            grammar = bytes.fromhex(text)
        elif key == "row":
            name, words, given = text, [], b""
        elif key == "word":
            words.append(text)
        elif key == "input":
            given += bytes.fromhex(text)
        elif key == "times":
            times, octets = text.split()
            given += bytes.fromhex(octets) * int(times)
        elif key == "run":
            yield grammar, name, " ".join(words), given


def answers():
    """What is wanted of the stored runs: the name, and the exit status, both outputs and the made file."""
    stored, at = (ROWS / "stdout").read_bytes(), 0
    while at < len(stored):
        head = ANSWER.match(stored, at)
        status, out, err, made = map(int, head.groups()[1:])
        at, parts = head.end(), []
        for size in (out, err, 2 * made + (made > 0)):
            parts.append(stored[at : at + size])
            at += size
        yield head[1].decode(), (status, parts[0], parts[1], bytes.fromhex(parts[2].decode()))


class Calls(unittest.TestCase):
    """Each call by itself."""

    def setUp(self):
        self.grammar = spvk.Grammar(read("profile.json"))
        self.kernel = read("modules/smallest-kernel.spv")

    def test_verdicts(self):
        verdict = self.grammar.check(self.kernel)
        self.assertEqual(verdict, spvk.Verdict(0, None, None))
        self.assertTrue(verdict.is_valid and verdict.code is None and verdict.sentence is None)
        cut = self.grammar.check(self.kernel[:-4])
        self.assertEqual((cut.code, cut.inst, cut.word), ("L2", 9, 29))
        self.assertEqual(str(cut), "fault L2 inst 9 word 29")
        self.assertGreater(len(cut.sentence), 9)
        self.assertEqual(str(self.grammar.check(b"")), "fault W2")
        self.assertIs(bool(verdict), True)
        self.assertIs(bool(cut), False)
        self.assertTrue(self.grammar.check(bytearray(self.kernel)).is_valid)
        self.assertTrue(self.grammar.check(memoryview(self.kernel)).is_valid)

    def test_explanations(self):
        self.assertEqual(self.grammar.explain(self.kernel).text, "valid\n")
        cut = self.grammar.explain(self.kernel[:-4])
        self.assertEqual(cut.verdict.code, "L2")
        self.assertTrue(cut.text.startswith("fault L2 inst 9 word 29\n"))
        self.assertIs(bool(self.grammar.explain(self.kernel)), True)
        self.assertIs(bool(cut), False)

    def test_evidence(self):
        valid = self.grammar.evidence(self.kernel)
        self.assertEqual((bool(valid), valid.verdict.code, valid.members), (True, None, {"verdict": "valid", "profile": "own"}))
        self.assertEqual(self.grammar.explain_json(self.kernel), '{"verdict":"valid","profile":"own"}\n')
        text = self.grammar.explain_json(self.kernel[:-4])
        self.assertEqual((text[-2:], text.count("\n")), ("}\n", 1))
        cut = self.grammar.evidence(self.kernel[:-4])
        self.assertEqual(cut.members, json.loads(text))
        self.assertEqual((bool(cut), cut.verdict), (False, self.grammar.check(self.kernel[:-4])))
        self.assertEqual(cut.verdict.sentence, cut.rule)
        self.assertIn(f"[{cut.section}]", cut.rule)
        self.assertIsNone(cut.operand)
        older = bytearray(self.kernel)
        older[5] = 4
        self.assertEqual(self.grammar.evidence(older).verdict.code, "W5")
        self.assertTrue(self.grammar.evidence(older, as_1_6=True))
        self.assertEqual(self.grammar.evidence(older, opencl=True).profile, "opencl")

    def test_values_of_evidence(self):
        found = self.grammar.evidence(read("modules/value-missing-on-one-branch.spv"))
        self.assertEqual(str(found.verdict), "fault A1 inst 19 word 61")
        self.assertEqual(found.at, spvk.Instruction(19, "%18 = OpIAdd %2 %17 %11"))
        self.assertEqual((found.function, found.block, found.walk), (10, 16, (13, 15, 16)))
        self.assertEqual(found.operand, spvk.Operand(2, id=17))
        self.assertEqual(found.defined, spvk.Instruction(14, "%17 = OpIAdd %2 %11 %11"))
        self.assertEqual((found.bound, found.types, found.may_end), (None, (), False))
        self.assertEqual(len({found, self.grammar.evidence(self.kernel)}), 2)

    def test_members_of_evidence(self):
        names = [field.name for field in dataclasses.fields(spvk.Evidence)]
        self.assertEqual(names, ["verdict", "members", *(name for name, _ in spvk._MEMBERS.values())])
        schema = json.loads((TOP / "docs/explain.schema.json").read_bytes())
        told = set(schema["$defs"]["fault"]["properties"]) - {"file", "verdict", "code", "inst", "word"}
        self.assertEqual(told, set(spvk._MEMBERS))

    def test_the_built_in_grammar(self):
        for grammar in (spvk.Grammar(), spvk.Grammar(None)):
            self.assertTrue(grammar.check(self.kernel))
            self.assertEqual(str(grammar.check(self.kernel[:-4])), "fault L2 inst 9 word 29")

    def test_older_versions(self):
        text = self.grammar.show(self.kernel)
        big = self.grammar.assemble(text, big=True)
        for module, major, minor in ((self.kernel, 6, 5), (big, 5, 6)):
            for number in range(6):
                older = bytearray(module)
                older[minor] = number
                self.assertEqual(str(self.grammar.check(older)), "fault W5")
                self.assertTrue(self.grammar.check(older, as_1_6=True))
                self.assertEqual(self.grammar.explain(older, as_1_6=True).text, "valid\n")
                self.assertEqual(self.grammar.show(older, as_1_6=True), text)
                self.assertTrue(self.grammar.check(older, opencl=True))
                self.assertTrue(self.grammar.check(older, opencl=True, extended=True))
                told = text.replace("; Version: 1.6\n", f"; Version: 1.{number}\n", 1)
                self.assertEqual(self.grammar.show(older, opencl=True), told)
                with self.assertRaises(ValueError):
                    self.grammar.check(older, as_1_6=True, opencl=True)
                self.assertEqual(older[minor], number)
            for place, number in ((minor, 7), (major, 2), (major, 0)):
                other = bytearray(module)
                other[place] = number
                self.assertEqual(str(self.grammar.check(other, as_1_6=True)), "fault W5")

    def test_extended_instructions(self):
        module = bytearray(read("modules/inside-of-an-extended-instruction.spv"))
        self.assertTrue(self.grammar.check(module))
        told = self.grammar.check(module, extended=True)
        self.assertEqual(str(told), "fault D1 inst 13 word 45")
        self.assertTrue(self.grammar.explain(module, extended=True).text.startswith(f"{told}\n"))
        self.assertTrue(self.grammar.evidence(module))
        found = self.grammar.evidence(module, extended=True)
        self.assertEqual((found.verdict, found.operand), (told, spvk.Operand(4, id=0)))
        self.assertEqual(found.members, json.loads(self.grammar.explain_json(module, extended=True)))
        module[5] = 2
        self.assertEqual(str(self.grammar.check(module, extended=True)), "fault W5")
        self.assertTrue(self.grammar.check(module, as_1_6=True))
        self.assertEqual(self.grammar.check(module, as_1_6=True, extended=True), told)

    def test_calls_of_what_a_set_does_not_have(self):
        text = (TOP / "tests/modules/inside-of-an-extended-instruction.spvasm").read_text(encoding="utf-8")
        call = text.replace('"x"', '"OpenCL.std"').replace("%5 7 %0 %99 %2 %1", "%5 61 %11 %11")
        module = self.grammar.assemble(call)
        self.assertTrue(self.grammar.check(module))
        told = self.grammar.check(module, extended=True)
        self.assertEqual((told.number, str(told)), (509, "fault Y9 inst 13 word 47"))
        found = self.grammar.evidence(module, extended=True)
        self.assertEqual((found.verdict, found.number, found.operands), (told, 61, 2))
        self.assertEqual((found.least, found.most), (1, 1))
        self.assertTrue(self.grammar.check(self.grammar.assemble(call.replace("%11 %11", "%11")), extended=True))

    def test_types_of_calls(self):
        text = (TOP / "tests/modules/inside-of-an-extended-instruction.spvasm").read_text(encoding="utf-8")
        call = text.replace('"x"', '"OpenCL.std"').replace("%5 7 %0 %99 %2 %1", "%5 61 %11")
        module = self.grammar.assemble(call)
        self.assertTrue(self.grammar.check(module, extended=True))
        told = self.grammar.check(module, opencl=True)
        self.assertEqual((told.number, str(told)), (510, "fault Y10 inst 13 word 47"))
        found = self.grammar.evidence(module, opencl=True)
        self.assertEqual((found.verdict, found.operand.index), (told, 0))

    def test_texts_and_back(self):
        text = self.grammar.show(self.kernel)
        self.assertTrue(text.startswith("; SPIR-V\n"))
        self.assertEqual(self.grammar.assemble(text), self.kernel)
        self.assertEqual(self.grammar.assemble(text.encode()), self.kernel)
        big = self.grammar.assemble(text, big=True)
        self.assertEqual(big[:4], bytes.fromhex("07230203"))
        with self.assertRaises(spvk.ModuleFault) as caught:
            self.grammar.show(self.kernel[:8])
        self.assertEqual(caught.exception.verdict.code, "W2")
        with self.assertRaises(spvk.TextFault) as caught:
            self.grammar.assemble("")
        self.assertEqual((caught.exception.code, caught.exception.line), ("S1", 1))
        for wrong in (b";\xff", ";\ud800"):
            with self.assertRaises(spvk.NotText):
                self.grammar.assemble(wrong)

    def test_refused_grammars(self):
        for text, code in ((b"", "J1"), (b"{}", "J2")):
            with self.assertRaises(spvk.GrammarError) as caught:
                spvk.Grammar(text)
            self.assertEqual(caught.exception.code, code)

    def test_where_grammars_are_refused(self):
        bad = b'{"instructions":[{"opname":"OpA","opcode":1,"operands":[{"kind":"A\\u001b"}]}],"operand_kinds":[]}'
        place = "at: instructions[0].operands[0].kind\nfound: \"A\\x1b\"\n"
        rows = [(b"{}", "at: instructions\nfound: nothing\nwanted: an array\n")]
        rows += [(bad, place + "wanted: the name of a kind of operand_kinds\n")]
        rows += [(b"[1\n", "found: line 2, column 0\nwanted: JSON of at most 127 levels\n")]
        for text, lines in rows:
            with self.assertRaises(spvk.GrammarError) as caught:
                spvk.Grammar(text)
            self.assertEqual(caught.exception.lines, lines)
        self.assertEqual(spvk.GrammarError("J1").lines, "")

    def test_what_is_not_bytes(self):
        for wrong in ("a text", 5, None):
            with self.assertRaises(TypeError):
                self.grammar.check(wrong)
        for wrong in ("a text", 5):
            with self.assertRaises(TypeError):
                spvk.Grammar(wrong)

    def test_rules(self):
        names = [name for name in map(spvk.rule_name, range(1400)) if name]
        self.assertEqual((len(names), len(set(names))), (74, 74))
        self.assertEqual((spvk.rule_name(107), spvk.rule_name(-1), spvk.rule_name(1 << 40)), ("I7", None, None))
        self.assertEqual(spvk.version(), spvk.__version__)

    def test_threads(self):
        wrong = []

        def run(grammar, kernel):
            for _ in range(200):
                if not grammar.check(kernel).is_valid:
                    wrong.append(kernel)

        grammar = spvk.Grammar(read("profile.json"))
        threads = [threading.Thread(target=run, args=(grammar, self.kernel)) for _ in range(8)]
        for thread in threads:
            thread.start()
        del grammar
        gc.collect()
        for thread in threads:
            thread.join()
        self.assertEqual(wrong, [])


class Cases(unittest.TestCase):
    """Every case: what the program answers."""

    def test_every_case(self):
        count, last, grammar = 0, None, None
        for (text, name, words, given), (told, wanted) in zip(rows(), answers()):
            self.assertEqual(name, told)
            if words not in CALLS:
                continue
            if text != last:
                last = text
                try:
                    grammar = spvk.Grammar(text)
                except spvk.GrammarError as error:
                    grammar = (2, b"", f"error {error.code}\n".encode(), b"")
            got = CALLS[words](grammar, given) if isinstance(grammar, spvk.Grammar) else grammar
            self.assertEqual(got, wanted, name)
            count += 1
        self.assertGreater(count, 700)


if __name__ == "__main__":
    unittest.main()
