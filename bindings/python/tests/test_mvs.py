"""What the module does beside the library: exceptions, dataclasses, iterators. The library's own replies are tested in C."""

import doctest
import os
import tempfile
import unittest
from pathlib import Path

import mvs

EXAMPLES = Path(__file__).resolve().parents[3] / "examples"


class SessionTest(unittest.TestCase):
    def setUp(self):
        self.session = mvs.Session()
        self.addCleanup(self.session.close)

    def begin(self):
        return self.session.begin("JOB", below=4, above=2)

    def test_step(self):
        self.assertEqual(self.begin(), mvs.Event(mvs.EventKind.STEP_BEGAN, task="JOB"))
        self.assertEqual(self.session.text(), "1 JOB REGION BELOW 4 ABOVE 2\n")
        self.assertEqual(self.session.end(), (mvs.Status.OK, mvs.Event(mvs.EventKind.JOB_ENDED, ended=mvs.StepEnd.CLEAN)))
        with self.assertRaises(mvs.Error) as over:
            self.session.line("JOB RETURN")
        self.assertEqual(over.exception.status, mvs.Status.OVER)

    def test_region(self):
        self.session.begin("JOB", below=1, above=1, fill=0xC1, resides_above=True)
        self.assertEqual(self.session.read(self.session.obtain("JOB", 8, form=mvs.Form.RU).address, 2), b"\xc1\xc1")
        self.assertEqual(self.session.pages().__next__().address, 0x6000)
        with self.assertRaises(mvs.ScriptError) as fault:
            self.session.begin("JOB", below=0)
        self.assertEqual(fault.exception.number, 6)
        with self.assertRaises(mvs.FieldError):
            self.session.begin("JOB", below=1, fill=256)

    def test_fault_changes_nothing(self):
        self.begin()
        with self.assertRaises(mvs.ScriptError) as fault:
            self.session.line("JOB GETMIAN R,LV=8,A=X")
        self.assertEqual((fault.exception.number, str(fault.exception)), (3, "JS03: JOB GETMIAN R,LV=8,A=X"))
        self.assertEqual(self.session.line("JOB GETMAIN R,LV=8,A=X\n").kind, mvs.EventKind.RC_0)
        with self.assertRaises(mvs.ScriptError):
            self.session.line("JOB \u20ac")

    def test_clone(self):
        self.begin()
        address = self.session.obtain("JOB", 8).address
        self.session.write(address, b"abc")
        copy = self.session.clone()
        self.addCleanup(copy.close)
        self.assertEqual((copy.read(address, 3), copy.script), (b"abc", self.session.script))
        copy.write(address, b"xyz")
        self.assertEqual((self.session.read(address, 3), copy.read(address, 3)), (b"abc", b"xyz"))
        self.session.close()
        self.assertEqual(copy.obtain("JOB", 8).address, address + 8)
        with self.assertRaises(mvs.Error) as no_session:
            self.session.clone()
        self.assertEqual(no_session.exception.status, mvs.Status.NO_SESSION)

    def test_why(self):
        self.begin()
        self.assertEqual(self.session.why(), "")
        self.assertEqual(self.session.line("JOB GETMAIN R,LV=8,A=X,SP=200").kind, mvs.EventKind.ABENDED)
        self.assertEqual(self.session.why(), "* A program can use SP 0 to 127, 131 and 132, but not 200. (rule 8)\n")
        self.assertEqual(self.session.obtain("JOB", 8).kind, mvs.EventKind.NOT_RUN)
        self.assertEqual(self.session.why(), "* JOB is not active: it has ended, or was never attached. (rule 73)\n")

    def test_reason(self):
        self.begin()
        self.assertIsNone(self.session.reason())
        self.assertEqual(self.session.release("JOB", 0x6000, 8).kind, mvs.EventKind.RC_4)
        self.assertEqual(self.session.reason(), mvs.Reason(mvs.ReasonKind.NO_SUBPOOL, 26, task="JOB"))
        area = self.session.obtain("JOB", 8)
        self.assertIsNone(self.session.reason())
        self.session.release("JOB", area.address, 16)
        wanted = mvs.Reason(mvs.ReasonKind.NOT_HELD, 26, 66, address=area.address + 8, holder=mvs.Holder.NOBODY, task="JOB")
        self.assertEqual(self.session.reason(), wanted)
        self.session.line("JOB GETMAIN RC,LV=32768,A=X,SP=3")
        room = {"longest": 12288, "pages_below": 3, "pages_above": 2}
        self.assertEqual(self.session.reason(), mvs.Reason(mvs.ReasonKind.SHORTAGE, 12, number=3, length=32768, **room))

    def test_without_bytes(self):
        session = mvs.Session(has_bytes=False)
        session.begin("JOB", below=4)
        self.assertIsNone(session.changed_pages())
        area = session.obtain("JOB", 8192)
        changed = mvs.ChangedPages(area.address, area.address + 4096)
        self.assertEqual((session.changed_pages(), session.changed_pages()), (changed, None))
        calls = {
            "read": lambda: session.read(area.address, 1),
            "readable": lambda: session.readable(area.address),
            "write": lambda: session.write(area.address, b"a"),
            "move": lambda: session.move("JOB", area.address, area.address + 8, 8),
            "show": lambda: session.line("JOB SHOW X'6000',1"),
        }
        for name, call in calls.items():
            with self.subTest(name), self.assertRaises(mvs.Error) as refused:
                call()
            self.assertEqual(refused.exception.status, mvs.Status.NO_BYTES)
        self.assertEqual(session.script.count("\n"), 2)
        session.end_task("JOB")
        self.assertEqual((session.clone().changed_pages(), session.changed_pages()), (changed, changed))
        self.assertIsNone(self.session.changed_pages())

    def test_effects(self):
        kind = mvs.EffectKind
        self.begin()
        self.session.obtain("JOB", 8)
        self.assertEqual(self.session.effects(), [])
        self.session.record()
        self.assertEqual(self.session.effects(), [])
        area = self.session.obtain("JOB", 20, subpool=3)
        wanted = [
            mvs.Effect(kind.OBTAINED, 3, address=area.address, length=24, least=20, most=20, number=3, owner="JOB"),
            mvs.Effect(kind.NEW_SUBPOOL, 42, number=3, owner="JOB"),
            mvs.Effect(kind.PAGES_ASSIGNED, 5, pages=1),
        ]
        self.assertEqual(self.session.effects(), wanted)
        copy = self.session.clone()
        self.addCleanup(copy.close)
        self.session.write(area.address, b"x")
        self.assertEqual((self.session.effects(), copy.effects()), ([], wanted))
        self.session.line("JOB RETURN")
        self.assertEqual([(found.kind, found.number, found.length) for found in self.session.effects()], [(kind.FREED, 0, 8), (kind.FREED, 3, 24)])

    def test_system_abend(self):
        self.begin()
        self.session.attach("JOB", "SUB")
        with self.assertRaises(mvs.FieldError):
            self.session.system_abend("SUB", 0x1000)
        event = self.session.system_abend("SUB", 0x0C1)
        self.assertEqual((event.code, event.completion), (0x0C1000, "S0C1"))
        self.assertEqual(self.session.reason(), mvs.Reason(mvs.ReasonKind.ASKED, 55, task="SUB"))
        self.assertEqual(self.session.system_abend("SUB", 0x0C1).kind, mvs.EventKind.NOT_RUN)

    def test_pools(self):
        self.begin()
        self.assertEqual((self.session.pool("P"), list(self.session.pools())), (None, []))
        self.session.build_pool("JOB", "P", 12, 1, 2, subpool=7)
        first = mvs.Pool("P", 12, 1, 0x6000, 40, 1, 7, "JOB")
        self.assertEqual((self.session.pool("P"), list(self.session.pools())), (first, [first]))
        self.session.get_cell("JOB", "P")
        self.session.get_cell("JOB", "P")
        self.assertEqual(list(self.session.pools()), [mvs.Pool("P", 12, 2, 0x6028, 48, 2, 7, "JOB")])
        self.session.build_pool("JOB", "A", 12, 1, 2)
        self.assertEqual([pool.name for pool in self.session.pools()], ["A", "P"])

    def test_tasks(self):
        self.assertEqual(list(self.session.tasks()), [])
        self.begin()
        self.session.attach("JOB", "SUB")
        self.session.attach("SUB", "ALFA")
        self.assertEqual(list(self.session.tasks()), [mvs.Task("ALFA", "SUB"), mvs.Task("JOB", None), mvs.Task("SUB", "JOB")])

    def test_storage(self):
        self.begin()
        area = self.session.obtain("JOB", 100, subpool=7)
        self.assertEqual((area.kind, area.address, area.length), (mvs.EventKind.GRANTED, 0x6000, 104))
        self.session.write(area.address, bytearray(b"abc"))
        self.assertEqual(self.session.read(area.address, 4), b"abc\0")
        self.session.move("JOB", area.address + 8, area.address, 3)
        self.assertEqual(self.session.read(area.address + 8, 3), b"abc")
        self.assertEqual(self.session.readable(area.address + 6), b"\0\0abc" + bytes(93))
        for call in (lambda: self.session.readable(area.address + 104), lambda: self.session.readable(-1)):
            with self.assertRaises(mvs.StorageError):
                call()
        for call in (lambda: self.session.read(area.address + 100, 8), lambda: self.session.write(0, b"x"), lambda: self.session.read(-1, 4)):
            with self.assertRaises(mvs.StorageError):
                call()
        self.assertEqual(list(self.session.subpools("JOB")), [mvs.Subpool(7, True, 104, 0)])
        pages = list(self.session.pages())
        self.assertEqual(pages[0], mvs.Run(0x6000, 4096, 7, "JOB"))
        self.assertEqual([run.owner for run in pages[1:]], [None, None])
        self.assertEqual(list(self.session.held_runs()), [mvs.HeldRun(0x6000, 104, 7, "JOB", None)])
        self.assertEqual(self.session.release_whole("JOB", 7).kind, mvs.EventKind.RC_0)

    def test_lists(self):
        self.begin()
        event, areas = self.session.obtain_list("JOB", [8, 20])
        self.assertEqual((event.kind, [area.length for area in areas]), (mvs.EventKind.RC_0, [8, 24]))
        self.assertEqual(self.session.release_list("JOB", areas).kind, mvs.EventKind.RC_0)
        self.assertEqual(self.session.obtain_list("JOB", [8, 1 << 30])[0].kind, mvs.EventKind.RC_4)
        for lengths in ([], [8] * 17, [0], [1 << 40], [-1]):
            with self.assertRaises(mvs.FieldError) as refused:
                self.session.obtain_list("JOB", lengths)
            self.assertEqual(refused.exception.field, "areas")

    def test_fields(self):
        self.begin()
        calls = {
            "length": lambda: self.session.obtain("JOB", 0),
            "least": lambda: self.session.obtain("JOB", 8, form=mvs.Form.VRC),
            "within": lambda: self.session.obtain("JOB", 8, form=mvs.Form.R, within=12),
            "location": lambda: self.session.obtain("JOB", 8, form=mvs.Form.EC, location=mvs.Location.ANY),
            "boundary": lambda: self.session.obtain("JOB", 8, boundary=-3),
            "subpool": lambda: self.session.release("JOB", 0x6000, 8, subpool=256),
            "task": lambda: self.session.obtain("TOOLONGNAME", 8),
            "name": lambda: self.session.delete_pool("JOB", "p"),
            "given_low": lambda: self.session.attach("JOB", "SUB", give=[5], share=[5]),
            "shared_low": lambda: self.session.attach("JOB", "SUB", share=[128]),
            "code": lambda: self.session.abend("JOB", 4096),
        }
        for field, call in calls.items():
            with self.subTest(field), self.assertRaises(mvs.FieldError) as refused:
                call()
            self.assertEqual(refused.exception.field, field)

    def test_tasks(self):
        self.begin()
        self.session.obtain("JOB", 8, subpool=70)
        self.assertEqual(self.session.attach("JOB", "SUB", give=[70]).kind, mvs.EventKind.ATTACHED)
        self.assertEqual(self.session.attach("SUB", "SUB2", share_zero=False).kind, mvs.EventKind.ATTACHED)
        self.assertIn(70, [subpool.number for subpool in self.session.subpools("SUB")])
        abend = self.session.abend("SUB", 7)
        self.assertEqual((abend.completion, self.session.fallen()), ("U0007", ["SUB2"]))
        with self.assertRaises(mvs.Error) as gone:
            list(self.session.subpools("SUB"))
        self.assertEqual(gone.exception.status, mvs.Status.NO_TASK)
        self.assertEqual(self.session.obtain("JOB", 1 << 30, form=mvs.Form.R).completion, "S80A")

    def test_pools(self):
        self.begin()
        self.assertEqual(self.session.build_pool("JOB", "P", cell=12, primary=1).kind, mvs.EventKind.RC_0)
        cell = self.session.get_cell("JOB", "P", conditional=True)
        self.assertEqual((cell.kind, cell.length), (mvs.EventKind.CELL, 12))
        self.assertEqual(list(self.session.held_runs()), [mvs.HeldRun(0x6000, 40, 0, None, "P")])
        self.assertEqual(self.session.get_cell("JOB", "P", conditional=True).kind, mvs.EventKind.NO_CELL)
        self.assertEqual(self.session.free_cell("JOB", "P", cell.address).kind, mvs.EventKind.RC_0)
        self.assertEqual(self.session.end_task("JOB").kind, mvs.EventKind.ENDED)

    def test_closed(self):
        self.session.close()
        self.session.close()
        with self.assertRaises(mvs.Error) as closed:
            self.session.line("JOB RETURN")
        self.assertEqual(closed.exception.status, mvs.Status.NO_SESSION)

    def test_page(self):
        self.begin()
        with tempfile.TemporaryDirectory() as folder:
            program = Path(folder, "mvsjob")
            program.write_text('#!/bin/sh\necho "<p>$1"\ncat\n')
            program.chmod(0o755)
            page = self.session.page(str(program))
        self.assertEqual(page, "<p>--page\nJOB REGION BELOW=4,ABOVE=2,FILL=00,RES=BELOW\n")
        self.assertIn("&lt;p&gt;", page._repr_html_())
        with self.assertRaises(FileNotFoundError):
            self.session.page("no such program")

    def test_script(self):
        self.begin()
        area = self.session.obtain("JOB", 100, subpool=7, form=mvs.Form.VC, least=8, boundary=12)
        self.session.obtain("JOB", 8, form=mvs.Form.STORAGE_CONDITIONAL, boundary=4, within=12, location=mvs.Location.ANY)
        _, areas = self.session.obtain_list("JOB", [8, 20], boundary=12)
        self.session.obtain_list("JOB", [8, 1 << 30])
        self.session.release_list("JOB", areas)
        self.session.build_pool("JOB", "P", cell=12, primary=2, secondary=3, location=mvs.Location.BELOW)
        cell = self.session.get_cell("JOB", "P")
        self.session.move("JOB", area.address, cell.address, 4)
        self.session.free_cell("JOB", "P", cell.address)
        self.session.delete_pool("JOB", "P")
        self.session.release("JOB", area.address, 8, form=mvs.Form.VU, subpool=7)
        self.session.attach("JOB", "SUB", give=[7], share=[70, 71], share_zero=False, res_above=True)
        self.session.end_task("SUB")
        self.session.release_whole("JOB", 7, form=mvs.Form.STORAGE)
        self.session.abend("JOB", 77)
        script = self.session.script
        self.assertEqual(script.count("\n"), 16)
        ran = mvs.run(script)
        self.assertEqual((ran.status, ran.text.count(" RC 0")), (mvs.Status.SOME_ABEND, 9))
        again = mvs.Session()
        for line in script.splitlines():
            again.line(line)
        self.assertEqual(list(again.pages()), list(self.session.pages()))
        self.assertIn("STEP ENDED RC 8", ran.text)


class ModuleTest(unittest.TestCase):
    def test_examples(self):
        for path in sorted(EXAMPLES.glob("*.job")):
            with self.subTest(path.name):
                self.assertEqual(mvs.run(path.read_bytes()).text, path.with_suffix(".out").read_text())

    def test_run(self):
        self.assertEqual(mvs.run("JOB REGION BELOW=1\n").status, mvs.Status.OK)
        self.assertEqual(mvs.run("").status, mvs.Status.SCRIPT_FAULT)
        with self.assertRaises(mvs.Error) as long:
            mvs.run(b"\n" * 16777216)
        self.assertEqual(long.exception.status, mvs.Status.TOO_LONG)

    def test_documents(self):
        self.assertEqual(doctest.testmod(mvs).failed, 0)
        self.assertEqual(mvs.version() // 1000, 2)
        self.assertTrue(all(hasattr(mvs, name) and getattr(mvs, name).__doc__ for name in mvs.__all__), os.fspath(EXAMPLES))


if __name__ == "__main__":
    unittest.main()
