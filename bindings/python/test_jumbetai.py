"""Tests of the package jumbetai: `python3 -m unittest` in this folder, with JUMBETAI_LIB as the package says.

JUMBETAI_BATCH names a file of a batch of events, as tools/make_batch.py makes one of 30.6 MB; without it a batch of 500
is made here. JUMBETAI_SITE names the program `site`, whose answers are then compared byte for byte; without it that is
skipped, and said.
"""
import contextlib
import ctypes
import doctest
import errno
import gc
import hashlib
import itertools
import json
import os
import pathlib
import random
import resource
import shutil
import signal
import sqlite3
import subprocess
import sys
import tempfile
import threading
import unittest
from http.server import BaseHTTPRequestHandler, HTTPServer

import jumbetai
from jumbetai import (
    MAX_PARTS,
    QUESTIONS,
    Error,
    Lag,
    OrderCounts,
    Outbox,
    Page,
    Site,
    Status,
    Taken,
    _c,
    combine,
    combine_summaries,
    part_of,
    split,
)

HERE = os.path.dirname(os.path.abspath(__file__))
EXAMPLES = os.path.join(HERE, "../../examples/python")


def event(number, source="/shop", **more):
    made = {"specversion": "1.0", "id": str(number), "source": source, "type": "sold", "sequence": f"{number:020d}"}
    return {**made, **more}


def batch(events):
    return json.dumps(events).encode()


FEW = batch([event(number) for number in range(1, 251)])


def given_batch():
    """The batch that JUMBETAI_BATCH names, else a small one."""
    if not os.environ.get("JUMBETAI_BATCH"):
        return FEW
    with open(os.environ["JUMBETAI_BATCH"], "rb") as file:
        return file.read()


def load_tests(_loader, tests, _pattern):
    tests.addTests(doctest.DocTestSuite(jumbetai))
    return tests


class Sites(unittest.TestCase):
    def test_an_empty_site(self):
        with Site() as site:
            self.assertEqual(len(site), 0)
            self.assertEqual(site.ask("cover"), b'{"sources":{},"version":1}\n')
            self.assertEqual(site.ask("shown"), b"")
            self.assertEqual(list(site.pages()), [])

    def test_events_are_kept_once(self):
        with Site() as site:
            self.assertEqual(site.take(FEW), Taken(250, 0))
            self.assertEqual(site.take(FEW.decode()), Taken(0, 250))
            self.assertEqual(len(site), 250)
            self.assertEqual(site.ask("kinds"), b'["sold",250]\n')

    def test_pages(self):
        with Site() as site, Site() as copy:
            site.take(FEW)
            pages = list(site.pages())
            self.assertEqual([(it.start, it.events) for it in pages], [(0, 100), (100, 100), (200, 50)])
            self.assertEqual(list(site.pages(start=200)), pages[2:])
            self.assertEqual(sum(copy.take(it.json).fresh for it in pages), 250)
            self.assertEqual(copy.summary(), site.summary())

    def test_bodies_are_answered_each(self):
        with tempfile.TemporaryDirectory() as folder:
            path = os.path.join(folder, "service.db")
            for site in (Site(), Site(path)):
                with site:
                    one, two = batch([event(1), event(2)]), batch([event(2), event(3)])
                    answers = site.take_each([one, "{}", two, batch([event(4, sequence="4")]), b"[]", bytearray(one)])
                    taken = [it if isinstance(it, Taken) else it.status for it in answers]
                    wanted = [(2, 0), Status.NO_EVENTS, (1, 1), Status.NO_NUMBER, (0, 0), (0, 2)]
                    self.assertEqual(taken, wanted)
                    self.assertEqual(site.take_each([]), [])
                    self.assertEqual(len(site), 3)
            with Site(path) as again:
                self.assertEqual(len(again), 3)
                with self.assertRaises(TypeError):
                    again.take_each([1])

    def test_bodies_over_a_file_are_answered_as_those_taken_one_by_one(self):
        for seed in range(4):
            chance = random.Random(seed)
            with tempfile.TemporaryDirectory() as folder, Site(os.path.join(folder, "it.db")) as site, Site() as alone:
                for _ in range(3):
                    some = [
                        event(chance.randrange(1, 60), type=chance.choice("ab")) for _ in range(chance.randrange(80))
                    ]
                    bodies = [chance.choice([json.dumps(it)] * 8 + [batch([it, event(1)]), "{}"]) for it in some]
                    wanted = [it if isinstance(it, Taken) else it.status for it in alone.take_each(bodies)]
                    told = [it if isinstance(it, Taken) else it.status for it in site.take_each(bodies)]
                    self.assertEqual(told, wanted, seed)
                self.assertEqual([it.json for it in site.arrivals()], [it.json for it in alone.arrivals()], seed)

    def test_arrivals_and_copies(self):
        with tempfile.TemporaryDirectory() as folder:
            path = os.path.join(folder, "service.db")
            for site in (Site(), Site(path)):
                with site:
                    site.take(batch([event(7), event(3)]))
                    site.take(FEW)
                    pages = list(site.arrivals())
                    self.assertEqual([(it.start, it.events) for it in pages], [(0, 100), (100, 100), (200, 50)])
                    ids = [it["id"] for page in pages for it in json.loads(page.json)]
                    self.assertEqual(ids[:5], ["7", "3", "1", "2", "4"])
                    self.assertEqual(list(site.arrivals(after=200)), pages[2:])
                    self.assertEqual(list(site.arrivals(after=2**64)), [])
                    self.assertRaises(ValueError, site.arrivals, -1)
                    with site.copy() as copy:
                        self.assertEqual(list(copy.arrivals()), pages)
                        self.assertEqual((copy.name(), copy.summary()), (site.name(), site.summary()))
                        copy.take(batch([event(251)]))
                        self.assertEqual((len(copy), len(site)), (251, 250))
            with Site(path) as again:
                self.assertEqual(list(again.arrivals()), pages)

    def test_events_by_their_source_and_id(self):
        with tempfile.TemporaryDirectory() as folder:
            for site in (Site(), Site(os.path.join(folder, "get.db"))):
                with site:
                    site.take(FEW)
                    self.assertEqual(site.get("/shop", "251"), [])
                    (found,) = site.get("/shop", "250")
                    self.assertEqual(json.loads(found), event(250))
                    self.assertEqual(site.take(found), Taken(0, 1))
                    site.take(batch([event(7, type="zinc"), event(7, type="gold"), event(7, id="\u00e9 7")]))
                    found = site.get(b"/shop", b"7")
                    self.assertEqual([json.loads(it)["type"] for it in found], ["gold", "sold", "zinc"])
                    self.assertIn(found[0] + b"\n", site.ask("shown"))
                    conflict = b'{"events":[' + b",".join(found) + b'],"id":"7","source":"/shop"}\n'
                    self.assertEqual(site.ask("conflicts"), conflict)
                    self.assertEqual([json.loads(it)["id"] for it in site.get("/shop", "\u00e9 7")], ["\u00e9 7"])
                    for source, name in (("/shop", ""), ("", "7"), ("/sho", "p7"), ("7", "/shop"), (b"\xff", "7")):
                        self.assertEqual(site.get(source, name), [])
                    self.assertEqual(len(site), 253)

    def test_names_and_covers(self):
        with Site() as site, Site() as other:
            site.take(FEW)
            for number in range(250, 0, -1):
                other.take(batch([event(number)]))
            self.assertEqual(site.name(), hashlib.sha256(site.summary().rstrip(b"\n")).digest())
            self.assertEqual(site.name(), other.name())
            other.take(batch([event(251)]))
            self.assertNotEqual(site.name(), other.name())
            self.assertEqual(site.cover(), site.ask("cover"))
            site.release()
            self.assertEqual(site.cover(), b'{"sources":{"/shop":[[1,250]]},"version":1}\n')

    def test_lags(self):
        with Site() as site, Site() as peer:
            site.take(FEW)
            peer.take(batch([event(number) for number in range(200, 301)]))
            self.assertEqual(site.compare(peer.summary()), Lag(50, 199, 1))
            self.assertEqual(peer.compare(site.cover()), Lag(199, 50, 0))
            self.assertEqual(site.compare(site.summary()), Lag(0, 0, 0))
            with self.assertRaises(Error) as refused:
                site.compare(b"{}")
            self.assertEqual(refused.exception.status, Status.SUMMARY_SHAPE)

    def test_parts(self):
        with Site() as site:
            site.take(FEW)
            nothing = '{"sources":{},"version":1}'
            rows = [((0, 0, 0), 100), ((0, 2**70, 0), 250), ((200, 2000, 0), 50), ((0, 2000, 1), 100)]
            for numbers, come in rows:
                part = site.delta_part(nothing, *numbers)
                self.assertEqual((part.start, part.events), (numbers[0], come))
                self.assertEqual(len(json.loads(part.json)), come)
            self.assertIsNone(site.delta_part(nothing, 250, 2000))
            self.assertIsNone(site.delta_part(site.summary(), 0, 2000))
            self.assertRaises(ValueError, site.delta_part, nothing, 0, -1)
            with self.assertRaises(Error) as refused:
                site.delta_part('{"version":3}', 0, 1)
            self.assertEqual(refused.exception.status, Status.SUMMARY_VERSION)

    def test_bytes_without_a_site(self):
        self.assertEqual(jumbetai.test(FEW), 250)
        self.assertEqual(jumbetai.test("[]"), 0)
        for given, status in ((b"", Status.NO_EVENTS), (batch([event(4, sequence="4")]), Status.NO_NUMBER)):
            with self.assertRaises(Error) as refused:
                jumbetai.test(given)
            self.assertEqual(refused.exception.status, status)

    def test_what_a_peer_lacks(self):
        with Site() as north, Site() as south:
            north.take(FEW)
            south.take(batch([event(number) for number in range(101, 251)]))
            sent = list(north.delta(south.summary()))
            for page in sent:
                south.take(page.json)
            self.assertEqual(south.summary(), north.summary())
            self.assertEqual(list(north.delta(south.summary())), [])
            # The line end of a summary may be left out.
            self.assertEqual(list(north.delta(south.summary().rstrip(b"\n"))), [])
            for question in QUESTIONS:
                self.assertEqual(south.ask(question), north.ask(question), question)

    def test_two_events_under_one_number_go_too(self):
        with Site() as north, Site() as south:
            north.take(batch([event(1)]))
            south.take(batch([event(1, subject="other")]))
            for one, other in ((north, south), (south, north)):
                for page in one.delta(other.summary()):
                    other.take(page.json)
            self.assertEqual(north.summary(), south.summary())
            self.assertEqual(len(north), 2)

    def test_kept_views_change_no_answer(self):
        with Site() as plain, Site() as keeping:
            keeping.take(batch([event(number) for number in range(1, 11)]))
            keeping.keep_views()
            keeping.take(FEW)
            plain.take(FEW)
            for question in QUESTIONS:
                self.assertEqual(plain.ask(question), keeping.ask(question), question)

    def test_refusals(self):
        with Site() as site:
            refused = {b"{}": 2, b"": 2, batch([event(1), {**event(2), "sequence": "2"}]): 3}
            for given, status in refused.items():
                with self.assertRaises(Error) as caught:
                    site.take(given)
                self.assertEqual(caught.exception.status, status, given)
            self.assertEqual(len(site), 0)
            line = json.loads(site.check(batch([event(1), {**event(2), "sequence": "2"}])))
            self.assertEqual((line["index"], line["fault"], line["value"]), (1, "BadSequence", "2"))
            self.assertEqual(site.check(FEW), b"")
            summaries = {b"": 5, b"{}": 6, b'{"sources":{},"version":3}': 7, b' {"sources":{},"version":1}': 8}
            for given, status in summaries.items():
                with self.assertRaises(Error) as caught:
                    next(site.delta(given), None)
                self.assertEqual(caught.exception.status, status, given)
            with self.assertRaises(ValueError):
                site.ask("who")

    def test_the_order_in_which_events_come_changes_no_answer(self):
        with Site() as site, Site() as copy:
            site.take(given_batch())
            for page in reversed(list(site.pages())):
                self.assertEqual(copy.take(page.json).fresh, page.events)
            self.assertEqual(len(copy), len(site))
            self.assertTrue(copy.summary() == site.summary(), "summary")
            for question in QUESTIONS:
                self.assertTrue(copy.ask(question) == site.ask(question), question)

    def test_a_site_without_events_is_true(self):
        with Site() as site:
            self.assertTrue(site)
            self.assertEqual(len(site), 0)

    def test_a_place_below_0_is_refused(self):
        with Site() as site:
            site.take(FEW)
            nothing = Site().summary()
            for start in (-1, -(2**64), -(2**64) + 5):
                with self.assertRaises(ValueError):
                    site.delta(nothing, start)
                with self.assertRaises(ValueError):
                    site.pages(start)
            for start in (250, 2**63, 2**64 - 1, 2**64, 2**64 + 5):
                self.assertEqual(list(site.delta(nothing, start)), [], start)
                self.assertEqual(list(site.pages(start)), [], start)

    def test_a_length_beyond_an_int_of_c(self):
        # The bytes aren't read: to have so many would take 4 GiB.
        place = ctypes.create_string_buffer(b"hello", 5)
        for length in (5, 2**31 - 1, 2**31 + 5, 2**32 + 5):
            self.assertEqual(len(_c.bytes_at(ctypes.addressof(place), length)), length)
        self.assertEqual(_c.bytes_at(ctypes.addressof(place), 5).raw, b"hello")
        self.assertEqual(_c.bytes_at(None, 0).raw, b"")

    def test_the_library_is_loaded_at_first_use(self):
        code = """
import jumbetai
print(jumbetai.PAGE, jumbetai.Status.BUSY, len(jumbetai.QUESTIONS))
try:
    jumbetai.Site()
except OSError:
    print("none")
"""
        more = {**os.environ, "JUMBETAI_LIB": "/none/libjumbetai.so"}
        ran = subprocess.run([sys.executable, "-c", code], cwd=HERE, env=more, capture_output=True, check=False)
        self.assertEqual((ran.stdout.decode().split(), ran.stderr), (["100", str(Status.BUSY), "7", "none"], b""))

    def test_a_closed_site(self):
        site = Site()
        site.close()
        site.close()
        with self.assertRaises(ValueError):
            site.summary()

    def test_threads_share_a_site(self):
        site = Site()

        def work(first):
            for number in range(first, first + 25):
                site.take(batch([event(number)]))
                self.assertGreater(len(site.summary()), 0)

        threads = [threading.Thread(target=work, args=(1 + 25 * it,)) for it in range(8)]
        for it in threads:
            it.start()
        for it in threads:
            it.join()
        self.assertEqual(site.ask("cover"), b'{"sources":{"/shop":[[1,200]]},"version":1}\n')
        site.close()


def ended(work, seconds=20):
    """How a forked process ends that does some work, and is killed where that takes too long: its status, 0 where it
    is done and the work answers true."""
    child = os.fork()
    if child == 0:
        status = 1
        try:
            signal.setitimer(signal.ITIMER_REAL, seconds)
            status = 0 if work() else 2
        finally:
            os._exit(status)
    return os.waitpid(child, 0)[1]


def raises_value_error(call, *arguments):
    try:
        call(*arguments)
    except ValueError:
        return True
    return False


class Forks(unittest.TestCase):
    """Processes that are forked while a thread is in a call, which is then held there."""

    def setUp(self):
        folder = tempfile.TemporaryDirectory()
        self.addCleanup(folder.cleanup)
        self.file = os.path.join(folder.name, "site.db")

    def fork_in_a_call(self, it, work):
        """Forks while a thread has the lock of a call, and answers how the child ends."""
        has_it, is_over = threading.Event(), threading.Event()

        def call():
            with it._lock:
                has_it.set()
                is_over.wait()

        thread = threading.Thread(target=call)
        thread.start()
        has_it.wait()
        try:
            return ended(work)
        finally:
            is_over.set()
            thread.join()

    def test_over_a_file(self):
        with Site(self.file) as site:
            site.take(FEW)

            def work():
                is_refused = raises_value_error(site.take, FEW) and raises_value_error(site.summary)
                site.close()
                return is_refused

            self.assertEqual(self.fork_in_a_call(site, work), 0)
            self.assertEqual(site.take(batch([event(251)])), Taken(1, 0))
        with Outbox(self.file) as outbox:
            is_refused = self.fork_in_a_call(
                outbox, lambda: raises_value_error(outbox.counts) and outbox.close() is None
            )
            self.assertEqual(is_refused, 0)
            self.assertEqual(outbox.counts(), OrderCounts(0, 0, 0))

    def test_in_memory(self):
        with Site() as site, Site() as other:
            site.take(FEW)
            other.take(FEW)

            def work():
                is_refused = raises_value_error(site.take, FEW) and raises_value_error(len, site)
                site.close()
                # What nobody used is a copy.
                return is_refused and other.take(batch([event(251)])) == Taken(1, 0) and len(other) == 251

            self.assertEqual(self.fork_in_a_call(site, work), 0)
            self.assertEqual((len(site), len(other)), (250, 250))
            self.assertEqual(ended(lambda: site.take(batch([event(251)])) == Taken(1, 0)), 0)
            self.assertEqual(len(site), 250)

    def test_while_a_thread_takes(self):
        with Site(self.file) as site:
            numbers = itertools.count(1)
            is_over = threading.Event()

            def take_on():
                while not is_over.is_set():
                    site.take(batch([event(next(numbers)) for _ in range(50)]))

            thread = threading.Thread(target=take_on)
            thread.start()
            try:
                for _ in range(20):
                    self.assertEqual(ended(lambda: raises_value_error(site.take, FEW)), 0)
            finally:
                is_over.set()
                thread.join()


class Interrupts(unittest.TestCase):
    """What an interrupt leaves, wherever it comes while something is opened."""

    def setUp(self):
        # In memory where that is had: what is synced says nothing here.
        folder = tempfile.TemporaryDirectory(dir="/dev/shm" if os.path.isdir("/dev/shm") else None)
        self.addCleanup(folder.cleanup)
        self.file = os.path.join(folder.name, "site.db")

    def interrupted(self, work, at):
        """Does some work with an interrupt before its line or instruction of this number; whether it was done."""
        steps = 0

        def trace(frame, what, _):
            nonlocal steps
            if not frame.f_globals.get("__name__", "").startswith("jumbetai") or frame.f_code.co_name == "__del__":
                return None
            frame.f_trace_opcodes = True
            if what in ("line", "opcode"):
                steps += 1
                if steps == at:
                    raise KeyboardInterrupt
            return trace

        before = sys.gettrace()
        sys.settrace(trace)
        try:
            work()
        except (KeyboardInterrupt, SystemError):
            # The latter is how Python 3.8 tells of an interrupt between two instructions of its own.
            return False
        finally:
            sys.settrace(before)
        return True

    def is_free_after_each(self, opens):
        opens().close()
        at, is_done = 0, False
        while not is_done:
            at += 1
            kept = []
            is_done = self.interrupted(lambda: kept.append(opens()), at)
            for it in kept:
                it.close()
            gc.collect()
            opens().close()
        self.assertGreater(at, 25)

    def test_a_site(self):
        self.is_free_after_each(lambda: Site(self.file))

    def test_an_outbox(self):
        self.is_free_after_each(lambda: Outbox(self.file, "/north", 3, 1))


# What another process does with a file: its status where it is opened, and how many events it has.
OPENING = """
import jumbetai, sys
try:
    print("done", len(jumbetai.Site(sys.argv[1])))
except jumbetai.Error as why:
    print(why.status.name, why)
"""
WRITING = """
import sqlite3, sys
try:
    with sqlite3.connect(sys.argv[1], timeout=0) as database:
        database.execute("PRAGMA locking_mode = EXCLUSIVE")
        database.execute("BEGIN EXCLUSIVE")
        database.execute("CREATE TABLE written (number INTEGER)")
    print("written")
except sqlite3.OperationalError as why:
    print(why)
"""
TAKING = """
import jumbetai, os, sys
site = jumbetai.Site(sys.argv[1])
print(site.take(sys.stdin.buffer.read()).fresh, flush=True)
os.abort()
"""


def elsewhere(code, file, given=b""):
    command = [sys.executable, "-c", code, file]
    ran = subprocess.run(command, cwd=HERE, input=given, stdout=subprocess.PIPE, check=False)
    return ran.stdout.decode().strip()


def said(site):
    """All that a site says."""
    return [*map(site.ask, QUESTIONS), site.summary(), *site.pages()]


def ask_sqlite(file, statement):
    """What SQLite answers."""
    with contextlib.closing(sqlite3.connect(file)) as database, database:
        return database.execute(statement).fetchall()


def bytes_in(folder):
    """The files of a folder, by their names."""
    return {it.name: it.read_bytes() for it in pathlib.Path(folder).iterdir()}


class Files(unittest.TestCase):
    def setUp(self):
        folder = tempfile.TemporaryDirectory()
        self.addCleanup(folder.cleanup)
        self.folder, self.file = folder.name, os.path.join(folder.name, "site.db")

    def test_a_file_has_what_was_taken(self):
        with Site() as plain, Site(self.file) as site:
            plain.take(FEW)
            self.assertEqual(len(site), 0)
            self.assertEqual(site.take(FEW), Taken(250, 0))
            self.assertEqual(site.take(batch([event(250), event(251)])), Taken(1, 1))
            self.assertNotEqual(said(site), said(plain))
            plain.take(batch([event(251)]))
            self.assertEqual(said(site), said(plain))
        with Site() as plain, Site(self.file) as site:
            plain.take(FEW)
            plain.take(batch([event(251)]))
            self.assertEqual(said(site), said(plain))
            site.keep_views()
            site.take(batch([event(252)]))
            plain.take(batch([event(252)]))
            self.assertEqual(said(site), said(plain))
        with Site(path=os.fsencode(self.file), cache_mib=1) as site:
            self.assertEqual(len(site), 252)

    def test_a_refused_opening_leaves_the_locks_of_sqlite(self):
        with Site(self.file) as site:
            site.take(FEW)
        plain = os.path.join(self.folder, "plain.db")
        with contextlib.closing(sqlite3.connect(plain)) as database, database:
            database.execute("CREATE TABLE kept (number INTEGER)")
        for file in (self.file, plain):
            for begin in ("BEGIN EXCLUSIVE", "BEGIN IMMEDIATE", "BEGIN; SELECT * FROM sqlite_master"):
                with contextlib.closing(sqlite3.connect(file, isolation_level=None)) as database:
                    cursor = [database.execute(it) for it in begin.split(";")]
                    cursor[-1].fetchone()
                    for _ in range(3):
                        for kind in (Site, Outbox):
                            with self.assertRaises(Error) as caught:
                                kind(file)
                            self.assertIs(caught.exception.status, Status.BUSY, begin)
                    self.assertEqual(elsewhere(OPENING, file).split()[0], "BUSY", begin)
                    self.assertEqual(elsewhere(WRITING, file), "database is locked", begin)
                    database.execute("ROLLBACK")
        with Site(self.file) as site:
            self.assertEqual(len(site), 250)
            with contextlib.closing(sqlite3.connect(self.file, timeout=0)) as database:
                with self.assertRaises(sqlite3.OperationalError):
                    database.execute("SELECT * FROM sqlite_master").fetchall()
            self.assertEqual(elsewhere(OPENING, self.file).split()[0], "BUSY")
        self.assertEqual(elsewhere(OPENING, self.file), "done 250")

    def test_a_file_is_busy_while_it_is_open(self):
        with Site(self.file) as site:
            site.take(FEW)
            self.assertEqual(elsewhere(OPENING, self.file).split()[0], "BUSY")
            with self.assertRaises(Error) as caught:
                Site(self.file)
            self.assertIs(caught.exception.status, Status.BUSY)
            self.assertEqual(site.take(batch([event(251)])), Taken(1, 0))
        self.assertEqual(elsewhere(OPENING, self.file), "done 251")

    def test_an_aborted_process_loses_nothing(self):
        self.assertEqual(elsewhere(TAKING, self.file, FEW), "250")
        self.assertGreater(os.path.getsize(f"{self.file}-wal"), 0)
        with Site(self.file) as site:
            self.assertEqual(len(site), 250)

    def test_what_is_no_database_is_refused(self):
        for path in (f"{self.file}\0", b"a\0b"):
            with self.assertRaises(ValueError):
                Site(path)
        for cache in (-1, 1 << 32):
            with self.assertRaises(ValueError):
                Site(self.file, cache)
        self.assertEqual(os.listdir(self.folder), [])
        text = os.path.join(self.folder, "text.db")
        with open(text, "wb") as out:
            out.write(b"a" * 200)
        refused = {
            f"{self.folder}/none/site.db": Status.SYSTEM,
            self.folder: Status.NO_FILE,
            text: Status.NO_DATABASE,
        }
        for path, status in refused.items():
            with self.assertRaises(Error) as caught:
                Site(path)
            self.assertIs(caught.exception.status, status, path)
        with open(text, "rb") as file:
            self.assertEqual(file.read(), b"a" * 200)

    def test_a_file_that_is_refused_stays_as_it_was(self):
        with Site(self.file) as site:
            site.take(FEW)
        for change, back, status in (
            ("UPDATE inbox2 SET number = 7 WHERE place = 3", "UPDATE inbox2 SET number = 3 WHERE place = 3", "FOREIGN"),
            (
                "UPDATE inbox2 SET place = 0 WHERE place = 250",
                "UPDATE inbox2 SET place = 250 WHERE place = 0",
                "FOREIGN",
            ),
            ("CREATE TABLE other (a INTEGER)", "DROP TABLE other", "STORE"),
        ):
            ask_sqlite(self.file, change)
            rows, before = ask_sqlite(self.file, "SELECT * FROM inbox2"), bytes_in(self.folder)
            with self.assertRaises(Error) as caught:
                Site(self.file)
            self.assertEqual(caught.exception.status.name, status, change)
            after = bytes_in(self.folder)
            self.assertEqual({name: after.get(name) for name in before}, before, change)
            self.assertEqual(ask_sqlite(self.file, "SELECT * FROM inbox2"), rows, change)
            ask_sqlite(self.file, back)
        with Site(self.file) as site:
            self.assertEqual(len(site), 250)

    def test_a_forked_process_leaves_the_file(self):
        with Site(self.file) as site, Site() as plain:
            site.take(FEW)
            plain.take(FEW)
            child = os.fork()
            if child == 0:
                ended = 1
                try:
                    site.take(batch([event(251)]))
                except ValueError:
                    site.close()
                    ended = 0 if plain.take(batch([event(251)])).fresh == 1 else 2
                finally:
                    os._exit(ended)
            self.assertEqual(os.waitpid(child, 0)[1], 0)
            self.assertEqual(site.take(batch([event(252)])), Taken(1, 0))
        with Site(self.file) as site:
            self.assertEqual(len(site), 251)

    def test_a_full_disk_takes_nothing(self):
        with Site(self.file) as site:
            site.take(FEW)
            before, limits = said(site), resource.getrlimit(resource.RLIMIT_FSIZE)
            largest = os.path.getsize(f"{self.file}-wal")
            resource.setrlimit(resource.RLIMIT_FSIZE, (largest, limits[1]))
            try:
                with self.assertRaises(Error) as caught:
                    site.take(batch([event(number) for number in range(251, 1000)]))
            finally:
                resource.setrlimit(resource.RLIMIT_FSIZE, limits)
            self.assertEqual((caught.exception.status, caught.exception.errno), (Status.STORE, errno.EFBIG))
            self.assertEqual(said(site), before)
        with Site(self.file) as site:
            self.assertEqual(said(site), before)

    def test_a_file_that_was_damaged_meanwhile_takes_nothing(self):
        # The system refuses nothing: that a page isn't what was written is told by opening anew. Events before all
        # others in key order want the first page of the index, which the cache doesn't keep.
        with Site(self.file) as site:
            site.take(batch([event(it, id=f"b{it}", subject="x" * 600) for it in range(251, 4000)]))
        with Site(self.file, cache_mib=1) as site:
            before = said(site)
            with open(self.file, "r+b") as out:
                out.seek(4096)
                out.write(b"U" * (os.path.getsize(self.file) - 4096))
            with self.assertRaises(Error) as caught:
                site.take(batch([event(it, id=f"a{it}") for it in range(4000, 5000)]))
            self.assertEqual((caught.exception.status, caught.exception.errno), (Status.STORE, 0))
            self.assertEqual(said(site), before)
        with self.assertRaises(Error) as caught:
            Site(self.file)
        self.assertEqual(caught.exception.status, Status.DAMAGED)

    @unittest.skipUnless(os.environ.get("JUMBETAI_FULL"), "JUMBETAI_FULL names no folder on a small file system")
    def test_a_full_disk_takes_none_of_the_bodies(self):
        file, ballast = (os.path.join(os.environ["JUMBETAI_FULL"], it) for it in ("python.db", "ballast"))
        few, many = batch([event(it) for it in range(1, 4)]), batch([event(it) for it in range(4, 404)])
        with Site(file, cache_mib=1) as site:
            site.take(few)
            before = said(site)
            with open(ballast, "wb", buffering=0) as out, contextlib.suppress(OSError):
                while True:
                    out.write(bytes(4096))
            os.truncate(ballast, os.path.getsize(ballast) - 65536)
            told = [(it.status, it.errno) for it in site.take_each([many, b"{}", few])]
            full = (Status.STORE, errno.ENOSPC)
            self.assertEqual(told, [full, (Status.NO_EVENTS, 0), full])
            self.assertEqual(said(site), before)
        os.remove(ballast)
        with Site(file, cache_mib=1) as site:
            self.assertEqual(said(site), before)
            answers = site.take_each([many, b"{}", few])
            self.assertEqual((answers[0], answers[2]), (Taken(400, 0), Taken(0, 3)))
        os.remove(file)

    def test_each_status_has_words_of_its_own(self):
        words = {str(Error(status)) for status in [*Status, 1_000_000]}
        self.assertEqual(len(words), len(Status) + 1)

    def test_the_program_reads_what_a_site_leaves(self):
        program = os.environ.get("JUMBETAI_SITE")
        if not program:
            self.skipTest("JUMBETAI_SITE names no program")
        with Site(self.file) as site:
            site.take(given_batch())
            kinds, summary = site.ask("kinds"), site.summary()
            held = subprocess.run([program, "kinds", "--db", self.file], capture_output=True, check=False)
            self.assertEqual((held.returncode, held.stdout), (1, b""))
        for word, answer in (("kinds", kinds), ("summary", summary)):
            found = subprocess.run([program, word, "--db", self.file], capture_output=True, check=True)
            self.assertTrue(found.stdout == answer, word)


NOON = "2024-02-29T12:00:00Z"
LARGEST = 2**63 - 1
ACTIONS = {"place": Outbox.place, "ship": Outbox.ship, "cancel": Outbox.cancel}
OPENING_OUTBOX = OPENING.replace("len(jumbetai.Site(sys.argv[1]))", "*jumbetai.Outbox(sys.argv[1]).counts()")
PLACING = """
import jumbetai, os, sys
outbox = jumbetai.Outbox(sys.argv[1])
for order in range(1, 51):
    outbox.place(order, "2024-02-29T12:00:00Z")
os.abort()
"""


def row(number, order, kind, source="/orders"):
    """The event of a row, without a line end."""
    digits = f"{number:020d}"
    made = {"id": digits, "sequence": digits, "source": source, "specversion": "1.0", "subject": str(order)}
    return json.dumps({**made, "time": NOON, "type": f"order.{kind}"}, separators=(",", ":")).encode()


class Outboxes(unittest.TestCase):
    def setUp(self):
        folder = tempfile.TemporaryDirectory()
        self.addCleanup(folder.cleanup)
        self.folder, self.file = folder.name, os.path.join(folder.name, "orders.db")

    def is_refused(self, status, call, *arguments):
        with self.assertRaises(Error) as caught:
            call(*arguments)
        self.assertIs(caught.exception.status, status, arguments)

    def test_orders_tell_their_events(self):
        with Outbox(self.file) as outbox:
            self.assertEqual(outbox.counts(), OrderCounts(0, 0, 0))
            self.assertEqual(list(outbox.rows()), [])
            self.assertEqual(outbox.place(7, NOON), row(1, 7, "placed") + b"\n")
            self.assertEqual(outbox.place(LARGEST, NOON.encode()), row(2, LARGEST, "placed") + b"\n")
            self.assertEqual(outbox.ship(7, NOON), row(3, 7, "shipped") + b"\n")
            self.assertEqual(outbox.cancel(LARGEST, NOON), row(4, LARGEST, "cancelled") + b"\n")
            self.assertEqual(outbox.counts(), OrderCounts(0, 4, 2))
            last = b"[" + row(3, 7, "shipped") + b"," + row(4, LARGEST, "cancelled") + b"]\n"
            self.assertEqual(list(outbox.rows(after=2)), [(4, 2, last)])
        with self.assertRaises(ValueError):
            outbox.counts()
        with Outbox(path=os.fsencode(self.file), cache_mib=1) as outbox:
            self.assertEqual(outbox.counts(), OrderCounts(0, 4, 2))

    def test_what_is_refused_leaves_the_outbox(self):
        with Outbox(self.file) as outbox:
            outbox.place(7, NOON)
            outbox.place(8, NOON)
            outbox.ship(7, NOON)
            before, rows = outbox.counts(), list(outbox.rows())
            self.is_refused(Status.ORDER_EXISTS, outbox.place, 8, NOON)
            self.is_refused(Status.NO_ORDER, outbox.ship, 9, NOON)
            self.is_refused(Status.WRONG_STATE, outbox.cancel, 7, NOON)
            for order in (0, -1, LARGEST + 1, 2**64 - 1, 2**64 + 8):
                self.is_refused(Status.BAD_ORDER, outbox.ship, order, NOON)
            for moment in ("", "noon", "2024-02-30T12:00:00Z", f"{NOON}\0", "2024-02-29T12:00:00." + "0" * 45 + "Z"):
                self.is_refused(Status.BAD_TIME, outbox.ship, 8, moment)
            with self.assertRaises(TypeError):
                outbox.ship("8", NOON)
            self.assertEqual((outbox.counts(), list(outbox.rows())), (before, rows))
            outbox.ship(8, NOON)

    def test_any_turn_of_commands(self):
        draw, states, told = random.Random(7), {}, []
        outbox = Outbox(self.file)
        for _ in range(400):
            action, order = draw.choice(list(ACTIONS)), draw.randint(1, 60)
            had = states.get(order)
            if action == "place":
                fault = Status.ORDER_EXISTS if had else None
            else:
                fault = {None: Status.NO_ORDER, "place": None}.get(had, Status.WRONG_STATE)
            if fault:
                self.is_refused(fault, ACTIONS[action], outbox, order, NOON)
            else:
                states[order] = action
                told.append(ACTIONS[action](outbox, order, NOON).rstrip(b"\n"))
                kind = {"place": "placed", "ship": "shipped", "cancel": "cancelled"}[action]
                self.assertEqual(told[-1], row(len(told), order, kind))
            self.assertEqual(outbox.counts(), OrderCounts(0, len(told), len(states)))
            if draw.random() < 0.05:
                outbox.close()
                outbox = Outbox(self.file)
        self.assertGreater(len(told), 100)
        after = draw.randrange(len(told))
        rows = b"".join(it.json for it in outbox.rows(after))
        pages = [told[first : first + 100] for first in range(after, len(told), 100)]
        self.assertEqual(rows, b"".join(b"[" + b",".join(it) + b"]\n" for it in pages))
        outbox.close()

    def test_rows_come_in_turn_from_any_number_on(self):
        with Outbox(self.file, "/west", 1000) as outbox, Site() as site:
            for order in range(1, 251):
                outbox.place(order, NOON)
            pages = list(outbox.rows())
            self.assertEqual([(it.last, it.events) for it in pages], [(1100, 100), (1200, 100), (1250, 50)])
            for after in (-1, 1, 1000):
                self.assertEqual(list(outbox.rows(after)), pages)
            self.assertEqual(list(outbox.rows(1200)), pages[2:])
            for after in (1250, 2**64 - 1, 2**64):
                self.assertEqual(list(outbox.rows(after)), [])
            self.assertEqual([site.take(it.json).fresh for it in pages], [100, 100, 50])
            self.assertEqual([site.take(it.json).fresh for it in outbox.rows(1100)], [0, 0])
            self.assertEqual(site.ask("cover"), b'{"sources":{"/west":[[1001,1250]]},"version":1}\n')

    def test_a_file_keeps_its_source_and_its_base(self):
        for source in ("", "a\0b", "a\7b", b"\xff", "a" * 1025):
            self.is_refused(Status.BAD_SOURCE, Outbox, self.file, source)
        for base in (-1, 2**63, 2**64):
            self.is_refused(Status.BAD_SOURCE, Outbox, self.file, "/west", base)
        with Outbox(self.file, "\u00e9" * 512, LARGEST - 1) as outbox:
            self.assertEqual(json.loads(outbox.place(1, NOON))["source"], "\u00e9" * 512)
            self.is_refused(Status.FULL, outbox.place, 2, NOON)
        self.is_refused(Status.ANOTHER_SOURCE, Outbox, self.file, "/orders")
        with Outbox(self.file, base=3) as outbox:
            self.assertEqual(outbox.counts(), OrderCounts(LARGEST - 1, LARGEST, 1))
            self.assertEqual([it.last for it in outbox.rows()], [LARGEST])

    def test_a_file_is_busy_while_it_is_open(self):
        with Outbox(self.file) as outbox:
            outbox.place(1, NOON)
            self.assertEqual(elsewhere(OPENING_OUTBOX, self.file).split()[0], "BUSY")
            self.assertEqual(elsewhere(OPENING, self.file).split()[0], "BUSY")
            self.is_refused(Status.BUSY, Outbox, self.file)
            outbox.place(2, NOON)
        self.assertEqual(elsewhere(OPENING_OUTBOX, self.file), "done 0 2 2")

    def test_an_aborted_process_loses_nothing(self):
        self.assertEqual(elsewhere(PLACING, self.file), "")
        self.assertGreater(os.path.getsize(f"{self.file}-wal"), 0)
        program = os.environ.get("JUMBETAI_SITE")
        if program:
            for more in ("", "-wal"):
                shutil.copy(f"{self.file}{more}", os.path.join(self.folder, f"copy.db{more}"))
            command = [program, "service", "--db", os.path.join(self.folder, "copy.db")]
            found = subprocess.run(command, capture_output=True, check=True)
            self.assertEqual(json.loads(found.stdout)["rows"], 50)
        with Outbox(self.file) as outbox:
            self.assertEqual(outbox.counts(), OrderCounts(0, 50, 50))

    def test_what_is_no_database_is_refused(self):
        for path in (f"{self.file}\0", b"a\0b"):
            with self.assertRaises(ValueError):
                Outbox(path)
        for cache in (-1, 1 << 32):
            with self.assertRaises(ValueError):
                Outbox(self.file, cache_mib=cache)
        self.assertEqual(os.listdir(self.folder), [])
        text = os.path.join(self.folder, "text.db")
        with open(text, "wb") as out:
            out.write(b"a" * 200)
        self.is_refused(Status.NO_DATABASE, Outbox, text)
        self.is_refused(Status.NO_FILE, Outbox, self.folder)
        self.is_refused(Status.SYSTEM, Outbox, f"{self.folder}/none/orders.db")

    def test_what_is_changed_by_hand_is_refused(self):
        with Outbox(self.file, "/north") as outbox:
            outbox.place(7, NOON)
            outbox.place(8, NOON)
            outbox.ship(7, NOON)
        self.assertEqual(ask_sqlite(self.file, "SELECT number, state FROM orders"), [(7, 2), (8, 1)])
        rows = [(1, 1, 7, NOON), (2, 1, 8, NOON), (3, 2, 7, NOON)]
        self.assertEqual(ask_sqlite(self.file, "SELECT number, kind, order_number, at FROM outbox"), rows)
        for change, back in (
            ("UPDATE orders SET state = 3 WHERE number = 8", "UPDATE orders SET state = 1 WHERE number = 8"),
            ("UPDATE outbox SET number = 4 WHERE number = 3", "UPDATE outbox SET number = 3 WHERE number = 4"),
            ("UPDATE outbox SET at = 'noon' WHERE number = 2", f"UPDATE outbox SET at = '{NOON}' WHERE number = 2"),
            ("DELETE FROM orders WHERE number = 8", "INSERT INTO orders VALUES (8, 1)"),
        ):
            ask_sqlite(self.file, change)
            before = ask_sqlite(self.file, "SELECT * FROM outbox"), ask_sqlite(self.file, "SELECT * FROM orders")
            self.is_refused(Status.FOREIGN, Outbox, self.file)
            after = ask_sqlite(self.file, "SELECT * FROM outbox"), ask_sqlite(self.file, "SELECT * FROM orders")
            self.assertEqual(after, before, change)
            ask_sqlite(self.file, back)
        ask_sqlite(self.file, "CREATE TABLE other (a INTEGER)")
        self.is_refused(Status.STORE, Outbox, self.file)
        ask_sqlite(self.file, "DROP TABLE other")
        with Outbox(self.file) as outbox:
            self.assertEqual(outbox.counts(), OrderCounts(0, 3, 2))

    def test_a_forked_process_leaves_the_file(self):
        with Outbox(self.file) as outbox:
            outbox.place(1, NOON)
            child = os.fork()
            if child == 0:
                ended = 1
                try:
                    outbox.place(2, NOON)
                except ValueError:
                    outbox.close()
                    ended = 0
                finally:
                    os._exit(ended)
            self.assertEqual(os.waitpid(child, 0)[1], 0)
            outbox.place(3, NOON)
        with Outbox(self.file) as outbox:
            self.assertEqual(outbox.counts(), OrderCounts(0, 2, 2))

    def test_a_full_disk_takes_no_order(self):
        with Outbox(self.file) as outbox:
            outbox.place(1, NOON)
            before, limits = list(outbox.rows()), resource.getrlimit(resource.RLIMIT_FSIZE)
            largest = os.path.getsize(f"{self.file}-wal")
            resource.setrlimit(resource.RLIMIT_FSIZE, (largest, limits[1]))
            try:
                with self.assertRaises(Error) as caught:
                    # What the log has room for is written.
                    for order in range(2, 1000):
                        outbox.place(order, NOON)
                        before = list(outbox.rows())
            finally:
                resource.setrlimit(resource.RLIMIT_FSIZE, limits)
            self.assertIs(caught.exception.status, Status.STORE)
        with Outbox(self.file) as outbox:
            self.assertEqual(list(outbox.rows()), before)

    def test_threads_share_an_outbox(self):
        with Outbox(self.file) as outbox:

            def work(first):
                for order in range(first, first + 5):
                    outbox.place(order, NOON)

            threads = [threading.Thread(target=work, args=(1 + 5 * it,)) for it in range(4)]
            for it in threads:
                it.start()
            for it in threads:
                it.join()
            self.assertEqual(outbox.counts(), OrderCounts(0, 20, 20))

    def test_what_lies_beside_an_outbox_stays(self):
        with Site(self.file) as site:
            site.take(FEW)
            before = said(site)
        with Outbox(self.file, "/north") as outbox:
            outbox.place(1, NOON)
            rows = list(outbox.rows())
        with Site(self.file) as site:
            self.assertEqual(said(site), before)
            self.assertEqual(site.take(rows[0].json), Taken(1, 0))
        with Outbox(self.file, "/north") as outbox:
            self.assertEqual(list(outbox.rows()), rows)

    def test_a_file_goes_from_the_program_to_an_outbox_and_back(self):
        program = os.environ.get("JUMBETAI_SITE")
        if not program:
            self.skipTest("JUMBETAI_SITE names no program")

        def run(*words):
            return subprocess.run([program, *words], cwd=self.folder, capture_output=True, check=True).stdout

        with Outbox(self.file, '"\\\u00e9', 40) as outbox:
            run("service", "--db", "theirs.db", "--source", '"\\\u00e9', "--base", "40")
            for action, order in (("place", 7), ("place", LARGEST), ("ship", 7)):
                told = run("order", "--db", "theirs.db", "--source", '"\\\u00e9', "--at", NOON, action, str(order))
                self.assertEqual(ACTIONS[action](outbox, order, NOON), told, (action, order))
            held = subprocess.run([program, "service", "--db", self.file], capture_output=True, check=False)
            self.assertEqual((held.returncode, held.stdout), (1, b""))
            rows = list(outbox.rows())
        for file in (self.file, "theirs.db"):
            self.assertEqual(run("relay", "--db", file, "--after", "0"), rows[0].json, file)
            line = json.loads(run("service", "--db", file))
            self.assertEqual(line, {"base": 40, "orders": 2, "rows": 3, "source": '"\\\u00e9'}, file)
        with Outbox(os.path.join(self.folder, "theirs.db")) as outbox:
            self.assertEqual((outbox.counts(), list(outbox.rows())), (OrderCounts(40, 43, 2), rows))
            self.is_refused(Status.WRONG_STATE, outbox.cancel, 7, NOON)
            told = run("order", "--db", self.file, "--source", '"\\\u00e9', "--at", NOON, "cancel", str(LARGEST))
            self.assertEqual(outbox.cancel(LARGEST, NOON), told)
            last = list(outbox.rows())
        self.assertEqual(run("relay", "--db", self.file, "--after", "0"), last[0].json)
        copy = os.path.join(self.folder, "copy.db")
        shutil.copy(os.path.join(self.folder, "theirs.db"), copy)
        self.assertEqual(json.loads(run("service", "--db", copy))["rows"], 4)


def resident():
    """How many bytes of memory this process has."""
    with open("/proc/self/statm", encoding="ascii") as it:
        return int(it.read().split()[1]) * os.sysconf("SC_PAGE_SIZE")


class Numberers(unittest.TestCase):
    def bare(self, *ids, source="/a"):
        made = [event(0, source=source, id=str(it)) for it in ids]
        for it in made:
            del it["sequence"]
        return made

    def numbers(self, told):
        return [int(it["sequence"]) for it in json.loads(told)]

    def test_a_text_has_one_number_for_ever(self):
        with tempfile.TemporaryDirectory() as folder:
            file = os.path.join(folder, "numbers.db")
            with jumbetai.Numbers(file, base=40) as numbers:
                given = batch([*self.bare(1, 2), *self.bare(1, source="/b"), *self.bare(1)])
                told = numbers.number(given)
                self.assertEqual(self.numbers(told), [41, 42, 41, 41])
                self.assertEqual(Site().take(told), Taken(3, 1))
                with self.assertRaises(Error) as caught:
                    jumbetai.Numbers(file, base=40)
                self.assertIs(caught.exception.status, Status.BUSY)
            with self.assertRaises(Error) as caught:
                jumbetai.Numbers(file)
            self.assertIs(caught.exception.status, Status.FOREIGN)
            with jumbetai.Numbers(file, base=40, cache_mib=1) as numbers:
                self.assertEqual(self.numbers(numbers.number(batch(self.bare(2, 3)))), [42, 43])
                others = len(json.dumps(self.bare("")[0], separators=(",", ":")))
                large = self.bare("x" * (262_111 - others))
                for bytes_, status, index in (
                    (batch([event(9)]), Status.HAS_SEQUENCE, 0),
                    (batch([*self.bare(5, 6), event(9), *large]), Status.HAS_SEQUENCE, 2),
                    (b"{}", Status.NO_EVENTS, None),
                    (batch([*self.bare(5), *large, event(9)]), Status.TOO_LARGE, 1),
                ):
                    with self.assertRaises(Error) as caught:
                        numbers.number(bytes_)
                    self.assertEqual((caught.exception.status, caught.exception.index), (status, index))
            with jumbetai.Numbers(os.path.join(folder, "last.db"), base=(1 << 63) - 2) as numbers:
                with self.assertRaises(Error) as caught:
                    numbers.number(batch(self.bare(1, 2)))
                self.assertEqual((caught.exception.status, caught.exception.index), (Status.FULL, 1))
            with Site(file) as site:
                self.assertEqual(len(site), 4)
            self.assertRaises(ValueError, jumbetai.Numbers, file, -1)
            self.assertRaises(ValueError, jumbetai.Numbers, "a\0b")

    def test_memory_stays_while_events_are_numbered(self):
        """A numberer that held each text would take some 400 bytes for each of 16,000 events more."""
        with tempfile.TemporaryDirectory() as folder:
            with jumbetai.Numbers(os.path.join(folder, "numbers.db"), cache_mib=1) as numbers:
                held = []
                for start in range(0, 24_000, 1_000):
                    told = numbers.number(batch(self.bare(*range(start, start + 1_000))))
                    held.append(resident())
                self.assertEqual(self.numbers(told), list(range(23_001, 24_001)))
                self.assertLess(held[-1] - held[7], 3 << 20)
                # What was numbered long ago is asked of the file.
                again = numbers.number(batch(self.bare(*range(0, 24_000, 1_000))))
                self.assertEqual(self.numbers(again), list(range(1, 24_001, 1_000)))


class HandingOn(unittest.TestCase):
    """The example hand_on.py, at a server in the place of a service, which answers so many requests by a list."""

    def setUp(self):
        held = tempfile.TemporaryDirectory()
        self.addCleanup(held.cleanup)
        self.folder, self.taken, self.answers = held.name, [], []
        test = self

        class Handler(BaseHTTPRequestHandler):
            def do_POST(self):
                body = self.rfile.read(int(self.headers["Content-Length"]))
                status = test.answers.pop(0)
                if status == 200:
                    test.taken += json.loads(body)
                test.assertEqual(self.headers["Content-Type"], "application/cloudevents-batch+json")
                test.assertEqual((self.path, self.headers["Authorization"]), ("/events", "Bearer of a file"))
                self.send_response(status)
                self.send_header("Content-Length", "0")
                self.end_headers()

            def log_message(self, *_):
                pass

        try:
            self.server = HTTPServer(("127.0.0.1", 0), Handler)
        except OSError as why:
            self.skipTest(f"no port of this machine can be had: {why}")
        self.addCleanup(self.server.server_close)
        thread = threading.Thread(target=self.server.serve_forever)
        thread.start()
        self.addCleanup(thread.join)
        self.addCleanup(self.server.shutdown)
        with open(f"{self.folder}/token", "w", encoding="ascii") as out:
            out.write("of a file\n")

    def hand_on(self):
        command = [sys.executable, f"{EXAMPLES}/hand_on.py", "orders.db", f"http://127.0.0.1:{self.server.server_port}"]
        more = {**os.environ, "PYTHONPATH": HERE}
        words = [*command, "mark", "--token", "token"]
        ran = subprocess.run(words, cwd=self.folder, env=more, capture_output=True, text=True, timeout=30, check=False)
        return ran.returncode, ran.stdout, ran.stderr

    def test_each_row_is_handed_on_once_it_is_taken(self):
        with Outbox(f"{self.folder}/orders.db", "/shop") as outbox:
            for order in range(1, 151):
                outbox.place(order, NOON)
        self.answers = [503, 200, 429, 200]
        self.assertEqual(self.hand_on(), (0, "150\n", ""))
        self.assertEqual([int(it["sequence"]) for it in self.taken], list(range(1, 151)))
        self.assertEqual(self.hand_on(), (0, "0\n", ""))
        with Outbox(f"{self.folder}/orders.db") as outbox:
            outbox.ship(7, NOON)
            # The file is busy, and then the service refuses the row for what it is: the mark stays.
            status, _, said = self.hand_on()
            self.assertEqual((status, said.startswith("hand_on: orders.db: ")), (1, True))
        self.answers = [400, 200]
        self.assertEqual(self.hand_on()[::2], (1, "hand_on: 400 \n"))
        self.assertEqual(self.hand_on(), (0, "1\n", ""))
        self.assertEqual([int(it["sequence"]) for it in self.taken[150:]], [151])


def own_part(source, parts):
    """The first eight bytes of the SHA-256 of a source, the greatest byte first, modulo the count."""
    return int.from_bytes(hashlib.sha256(source.encode()).digest()[:8], "big") % parts


class Parts(unittest.TestCase):
    SOURCES = ["/", "/north", "/süd", '/"quoted"\\', "urn:x:1", *(f"/shop/{it}" for it in range(6))]

    def random_events(self, dice):
        """Events of some sources: some share an id or a number, stand again, or have no subject or time."""
        found = []
        for _ in range(dice.randrange(40)):
            more = {}
            if dice.random() < 0.7:
                more["subject"] = dice.choice(["x", "ä", '"'])
            if dice.random() < 0.6:
                more["time"] = f"2024-0{dice.randrange(1, 4)}-1{dice.randrange(3)}T0{dice.randrange(3)}:00:00+01:00"
            kind, number = dice.choice(["sold", 'a"b', "ü"]), dice.randrange(1, 15)
            found.append(event(number, dice.choice(self.SOURCES), id=f"e{dice.randrange(9)}", type=kind, **more))
            if dice.random() < 0.2:
                found.append(dice.choice(found))
        return found

    def test_answers_of_parts_are_those_of_the_whole(self):
        for seed in range(1000):
            dice = random.Random(seed)
            events, parts = self.random_events(dice), dice.randrange(1, 9)
            whole, each = Site(), [Site() for _ in range(parts)]
            whole.take(batch(events))
            found = split(batch(events), parts)
            self.assertEqual(len(found), parts)
            for site, part in zip(each, found):
                site.take(part)
            dice.shuffle(each)
            covers = [site.cover() for site in each]
            for question in QUESTIONS:
                answers = [site.ask(question) for site in each]
                self.assertEqual(combine(question, answers, covers), whole.ask(question), (seed, question))
            self.assertEqual(combine_summaries([site.summary() for site in each]), whole.summary(), seed)

    def test_events_in_parts(self):
        for seed in range(40):
            dice = random.Random(seed)
            events, parts = self.random_events(dice), dice.randrange(1, 9)
            found = [[(it["source"], it["id"]) for it in json.loads(part)] for part in split(batch(events), parts)]
            wanted = [[] for _ in range(parts)]
            for it in events:
                wanted[own_part(it["source"], parts)].append((it["source"], it["id"]))
            self.assertEqual(found, wanted)
        self.assertEqual(split(json.dumps(event(1)), 1)[0][:1], b"[")
        self.assertEqual(split("[]", 3), [b"[]"] * 3)

    def test_the_part_of_a_source(self):
        for source in self.SOURCES:
            for parts in (1, 2, 3, 1000, MAX_PARTS):
                self.assertEqual(part_of(source, parts), own_part(source, parts))
        self.assertEqual(part_of(bytearray(b"/a"), 2), own_part("/a", 2))

    def refused(self, status, parts, call, *arguments):
        with self.assertRaises(Error) as told:
            call(*arguments)
        self.assertEqual((told.exception.status, told.exception.parts), (status, parts))

    def test_what_is_no_count(self):
        for count in (0, -1, MAX_PARTS + 1, 2**64):
            self.refused(Status.BAD_PARTS, (0, 0), part_of, "/a", count)
            self.refused(Status.BAD_PARTS, (0, 0), split, "{}", count)
        self.refused(Status.NO_EVENTS, (0, 0), split, "{}", 2)
        self.refused(Status.NO_NUMBER, (0, 0), split, batch([{**event(1), "sequence": "1"}]), 2)

    def test_what_is_no_whole(self):
        one, most = '["t",1]\n', '["t",%d]\n' % (2**64 - 1)
        a, b = ('{"sources":{"/%s":[[1,1]]},"version":1}\n' % it for it in "ab")
        self.assertEqual(combine("kinds", [one, one.encode()], [a, b]), b'["t",2]\n')
        self.assertEqual(combine("shown", []), b"")
        self.assertEqual(combine("cover", []), b'{"sources":{},"version":1}\n')
        for status, parts, answers, covers in (
            (Status.NOT_AN_ANSWER, (1, 0), [one, "x"], [a, b]),
            (Status.NOT_AN_ANSWER, (0, 0), [b"\xff", one], [a, b]),
            (Status.NOT_A_COVER, (1, 0), [one, one], [a, one]),
            (Status.NOT_A_COVER, (1, 0), [one, one], [a, b"\xff"]),
            (Status.COVER_COUNT, (2, 1), [one, one], [a]),
            (Status.COVER_COUNT, (1, 2), [one], [a, b]),
            (Status.TOO_MANY, (0, 0), [one, most], [a, b]),
            (Status.OVERLAP, (0, 2), [one, one, one], [a, b, a]),
        ):
            self.refused(status, parts, combine, "kinds", answers, covers)
        self.refused(Status.OVERLAP, (1, 2), combine, "cover", [a, b, b])
        with self.assertRaises(ValueError):
            combine("all", [])

    def test_the_summary_of_a_whole(self):
        # Each source with the numbers and the digests that its part tells.
        first, second, third = ('[%d,"%064x"]' % it for it in ((0, 1), (0, 2), (1, 3)))
        text = '{"blocks":{%s},"sources":{%s},"version":2}\n'
        a = text % ('"/a":[%s,%s]' % (second, third), '"/a":[[5,1025]]')
        b = text % ('"/b":[%s]' % first, '"/b":[[1,2]]')
        both = text % ('"/a":[%s,%s],"/b":[%s]' % (second, third, first), '"/a":[[5,1025]],"/b":[[1,2]]')
        self.assertEqual(combine_summaries([b, text % ("", ""), a]), both.encode())
        self.assertEqual(combine_summaries([a]), a.encode())
        # Refused are a source that stands in two parts, and a text that is no summary of version 2.
        self.refused(Status.OVERLAP, (0, 2), combine_summaries, [a, b, a])
        cover = '{"sources":{"/a":[[1,3]]},"version":1}\n'
        self.refused(Status.NOT_AN_ANSWER, (1, 0), combine_summaries, [b, cover])
        self.refused(Status.NOT_AN_ANSWER, (0, 0), combine_summaries, ["{}\n"])

    def test_what_is_no_summary_of_a_whole(self):
        digest = hashlib.sha256(b"").hexdigest()
        a, b = (
            '{"blocks":{"/%s":[[0,"%s"]]},"sources":{"/%s":[[1,1]]},"version":2}\n' % (it, digest, it) for it in "ab"
        )
        blocks = '"/a":[[0,"%s"]],"/b":[[0,"%s"]]' % (digest, digest)
        both = '{"blocks":{%s},"sources":{"/a":[[1,1]],"/b":[[1,1]]},"version":2}\n' % blocks
        self.assertEqual(combine_summaries([b, a]), both.encode())
        self.assertEqual(combine_summaries([]), b'{"blocks":{},"sources":{},"version":2}\n')
        cover = '{"sources":{"/b":[[1,1]]},"version":1}\n'
        for bad in ("", "x", b"\xff", a[:-1], a + " ", cover, a.replace(digest, digest.upper())):
            self.refused(Status.NOT_AN_ANSWER, (1, 0), combine_summaries, [b, bad])
        self.refused(Status.OVERLAP, (0, 2), combine_summaries, [a, b, a])


class BesideTheProgram(unittest.TestCase):
    def test_all_answers(self):
        program = os.environ.get("JUMBETAI_SITE")
        if not program:
            self.skipTest("JUMBETAI_SITE names no program")
        with tempfile.TemporaryDirectory() as folder, Site() as site:
            file = "batch.json"
            with open(os.path.join(folder, file), "wb") as out:
                out.write(given_batch())
            site.take(given_batch())

            def run(*words):
                return subprocess.run([program, *words], cwd=folder, stdout=subprocess.PIPE, check=True).stdout

            for question in QUESTIONS:
                self.assertTrue(site.ask(question) == run(question, file), question)
            run("take", "--db", "site.db", file)
            self.assertTrue(site.summary() == run("summary", "--db", "site.db"), "summary")
            with open(os.path.join(folder, "nothing"), "wb") as out:
                out.write(Site().summary())
            first, second = list(site.delta(Site().summary()))[:2]
            self.assertEqual(first.json, run("delta", "--db", "site.db", "nothing"))
            self.assertEqual(
                second, Page(100, second.events, run("delta", "--db", "site.db", "--from", "100", "nothing"))
            )
            self.assertEqual(next(site.pages()).json, run("scrub", "--db", "site.db"))
            wrong = batch([event(1), {**event(2), "sequence": "2"}])
            said = subprocess.run([program, "check", "-"], input=wrong, stdout=subprocess.PIPE, check=False).stdout
            self.assertEqual(site.check(wrong), said)


if __name__ == "__main__":
    unittest.main()
