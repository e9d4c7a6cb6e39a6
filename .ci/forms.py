#!/usr/bin/env python3
"""Holds the public forms that the specification names against the code, and against the table of docs/inside/DECISIONS.md, "Forms that differ from the specification".

A form is a call with its types, or a type with its public fields, variants or calls. Each of FORMS is in the code as it is written here, and public there
by its crate's lib.rt; or a row of the table names it. What a row has as code in its second cell is a part of the specified form, and what it has so in its
third cell is a part of a form in the code, or a public name. A row of a form that the code has is wrong, unless its second cell begins with "the same form":
then it is of the form's meaning. Two forms are the same where they differ by the names of parameters, by lifetimes, by the allocator that a call takes, or by
`&Vec<T>` in place of `&[T]`, since the one is taken for the other.

It tries itself on made-up code and tables too. Status: 0 where all is as it should be, else 1.
"""
import pathlib
import re
import sys

TOP = pathlib.Path(__file__).resolve().parent.parent
PAGE, HEAD = "docs/inside/DECISIONS.md", "## Forms that differ from the specification"
# how the second cell of a row begins that is of a form's meaning alone
SAME = "the same form"
# a list of the project's own that the specification writes as a `Vec`
LISTS = {"Spans": "Vec<(u32, u32)>"}

FORMS = """
nv_outside
  enum Got { Bytes(Vec<u8>), Long, Failed }
  trait Files { read(&mut self, &str, u32) -> Result<Got, AllocError> }
  enum Wrote { Count(usize), Failed }
  trait Sink { write(&mut self, &[u8]) -> Wrote }
  enum Put { Whole, Failed }
  put_all<S: Sink>(&mut S, &[u8]) -> Put
  trait Gate { before_publish(&self, u32, u32), after_take(&self, u32, u32) }
  struct OpenGate
  MemoryFiles::make(Vec<(String, Vec<u8>)>, Vec<u32>) -> MemoryFiles
  CalmFiles::make(Vec<(String, Vec<u8>)>, Vec<u8>) -> CalmFiles
  MemorySink::make(usize, usize, Vec<u32>) -> Result<MemorySink, AllocError>
  MemorySink::written(&self) -> &[u8]
  CalmSink::make(usize) -> Result<CalmSink, AllocError>
  CalmSink::written(&self) -> &[u8]
nv_bytes
  u16_at(&[u8], usize) -> u16
  u32_at(&[u8], usize) -> u32
  u64_at(&[u8], usize) -> u64
  put_u32(&mut [u8], usize, u32)
  put_u64(&mut [u8], usize, u64)
  number(&[u8]) -> Option<u32>
  unhex(&[u8]) -> Result<Option<Vec<u8>>, AllocError>
  decimal(u64, &mut [u8; 20]) -> usize
  hex_pair(u8) -> [u8; 2]
nv_calls
  struct Call { tid: u32, nr: u32, args: [u32; 6], bad: bool, payload: Bytes }
  struct Reply { ret: i32, payload: Bytes }
  struct Event { stamp: u32, call: Call, reply: Reply }
  enum Slot { Value, Address, Unused }
  Bytes::make(u32) -> Result<Bytes, AllocError>
  Bytes::set(&mut self, &[u8])
  Bytes::as_slice(&self) -> &[u8]
  slots(u32) -> [Slot; 6]
  is_local(u32) -> bool
  shaped(&Call) -> bool
  same(&Call, &Event) -> bool
  trait SyscallKernel { reserve(&mut self, &Call) -> Result<(), AllocError>, serve(&mut self, &Call), history(&self) -> &[Event], output(&self) -> &[u8],
      ended(&self) -> Option<u8> }
  RefusingKernel::make(K, Vec<u32>) -> RefusingKernel<K>
nv_elf
  struct Segment { address: u32, size: u32, read: bool, write: bool, execute: bool, bytes: Vec<u8> }
  struct Program { entry: u32, segments: Vec<Segment> }
  enum ElfFault { Short, Magic, Class, Kind, Machine, Flags, Header, Interpreted, Outside(u32), Overlap(u32, u32), Entry, Memory }
  read(&[u8]) -> Result<Program, ElfFault>
  write(&Program) -> Result<Vec<u8>, AllocError>
nv_isa
  struct Insn { op: Op, rd: u8, rs1: u8, rs2: u8, imm: i32 }
  decode(u32) -> Option<Insn>
  encode(&Insn) -> u32
nv_memory
  struct Region { start: u32, end: u32, read: bool, write: bool, execute: bool }
  struct Access(u32)
  enum Right { Read, Write, Execute }
  enum Width { One, Two, Four }
  Memory::make(u32, Vec<Region>) -> Result<Memory, AllocError>
  Memory::fill(&mut self, u32, &[u8])
  Memory::resize(&mut self, usize, u32)
  Memory::holds(&self, u32, u32, Right) -> bool
  Memory::load(&self, u32, Width) -> Result<u32, Access>
  Memory::store(&mut self, u32, Width, u32) -> Result<(), Access>
  Memory::fetch(&self, u32) -> Result<u32, Access>
  Memory::copy_in(&self, u32, &mut [u8]) -> Result<(), Access>
  Memory::copy_out(&mut self, u32, &[u8]) -> Result<(), Access>
  Memory::byte(&self, u32) -> Option<u8>
nv_machine
  struct Regs { pc: u32 }
  Regs::get(&self, u8) -> u32
  Regs::set(&mut self, u8, u32)
  Regs::reserved(&self) -> Option<u32>
  Regs::release(&mut self)
  enum FaultKind { Illegal, Misaligned, Fetch, Load, Store, Breakpoint, Budget, Deadlock, Calls }
  enum Stepped { On, Call, Fault(FaultKind) }
  step(&mut Regs, &mut Memory) -> Stepped
nv_asm
  enum AsmCause { Twice, Mnemonic, Operand, Label, Range }
  enum AsmFault { Line(u32, AsmCause), Memory }
  assemble(&[u8]) -> Result<Program, AsmFault>
nv_guest
  enum Asked { Local, Logged }
  enum GuestFault { NoRoom(u32), Arguments, Memory }
  Guest::make(&Program, &Vec<Vec<u8>>, u32) -> Result<Guest, GuestFault>
  Guest::call_of(&self, u32, &mut Call) -> Asked
  Guest::answer(&mut self, u32, i32, &[u8])
  Guest::clone_thread(&mut self, u32, u32)
  Guest::end_thread(&mut self, u32)
  Guest::move_break(&mut self, u32) -> u32
  Guest::pc(&self, u32) -> u32
  Guest::step(&mut self, u32) -> Stepped
  Guest::regs(&self, u32) -> &Regs
  Guest::memory(&self) -> &Memory
  Guest::release(&mut self)
nv_threads
  enum Want { Any, Only(u32) }
  enum Came { Asked(u32), Fault { kind: FaultKind, tid: u32, pc: u32 } }
  Process::make(Guest, u32) -> Result<Process, AllocError>
  Process::advance(&mut self, Want) -> Came
  Process::pending(&self, u32) -> &Call
  Process::pc(&self, u32) -> u32
  Process::answer(&mut self, u32, i32, &[u8])
  Process::ended(&self) -> Option<u8>
  Process::guest(&self) -> &Guest
  Process::count(&self) -> u32
  Process::lives(&self, u32) -> bool
  Process::highest(&self) -> u32
nv_script
  struct Script { arguments: Vec<Vec<u8>>, input: Vec<u8>, files: Vec<(Vec<u8>, Vec<u8>)>, seconds: u32, nanos: u32, step: u32, seed: u32, hands: Vec<u32>,
      connections: Vec<(u32, Vec<u8>)> }
  enum ScriptCause { Form, Word, Shape, Range, Twice, Long }
  enum ScriptFault { Line(u32, ScriptCause), Memory }
  read(&[u8]) -> Result<Script, ScriptFault>
nv_fs
  FileSystem::make(&Vec<u8>, &Vec<(Vec<u8>, Vec<u8>)>) -> Result<FileSystem, AllocError>
  FileSystem::reserve_path(&mut self, i32, &[u8], u32) -> Result<(), AllocError>
  FileSystem::open_at(&mut self, i32, &[u8], u32) -> i32
  FileSystem::unlink_at(&mut self, i32, &[u8], u32) -> i32
  FileSystem::dup(&mut self, u32) -> i32
  FileSystem::dup3(&mut self, u32, u32, u32) -> i32
  FileSystem::close(&mut self, u32) -> i32
  FileSystem::reserve_pipe(&mut self) -> Result<(), AllocError>
  FileSystem::pipe(&mut self, u32, &mut Bytes) -> i32
  FileSystem::seek(&mut self, u32, u32, u32, u32, &mut Bytes) -> i32
  FileSystem::read(&mut self, u32, u32, &mut Bytes) -> i32
  FileSystem::reserve_write(&mut self, u32, u32) -> Result<(), AllocError>
  FileSystem::write(&mut self, u32, &[u8]) -> i32
  FileSystem::has(&self, u32) -> bool
  FileSystem::console(&self) -> &[u8]
  FileSystem::opened(&self, u32) -> Opened
  enum Opened { Closed, Input, Console, File { offset: u32, size: u32 }, PipeRead, PipeWrite }
nv_kernel
  ScriptKernel::make(&Script) -> Result<ScriptKernel, AllocError>
  ScriptKernel::files(&self) -> &FileSystem
  constant(&Call, &mut Bytes) -> Option<i32>
nv_bpf
  struct Op { code: u16, jt: u8, jf: u8, k: u32 }
  enum FilterFault { Line(u32), Empty, TooLong, Count, Code(u32), Jump(u32), Scratch(u32), Offset(u32), Zero(u32), Shift(u32), NoReturn, Memory }
  read(&[u8]) -> Result<Filter, FilterFault>
  verify(Vec<Op>) -> Result<Filter, FilterFault>
  write(&Filter) -> Result<Vec<u8>, AllocError>
  Filter::len(&self) -> u32
  Filter::at(&self, u32) -> Op
nv_bpf_asm
  enum RuleCause { Twice, Word, Operand, Label, Far }
  enum RuleFault { Line(u32, RuleCause), Filter(FilterFault), Memory }
  assemble(&[u8]) -> Result<Filter, RuleFault>
nv_rules
  struct Pair { words: [u32; 33] }
  enum Verdict { Allow, Errno(u16), Skip, Refuse(u32) }
  pair_of(&Call, &Event, u32) -> Pair
  value(&Filter, &Pair) -> u32
  verdict(u32) -> Verdict
nv_replay
  enum Fate { Exited(u8), Fault { kind: FaultKind, tid: u32, pc: u32 }, Refused { tid: u32, nr: u32, stamp: u32, verdict: u32 }, Memory }
  struct Standing { fate: Option<Fate>, seen: u32, led: Vec<(u32, u32)>, rewrites: u32 }
  enum Followed { Matched, Rewrote(Verdict), Skipped, Dropped(Fate) }
  enum Led { Asked(u32), Dropped(Fate) }
  struct Account<K> { kernel: K, versions: Vec<Version> }
  Version::make(u32, Process) -> Result<Version, AllocError>
  Version::follow(&mut self, Option<&Filter>, &Event) -> Followed
  Version::begin_lead(&mut self)
  Version::end_lead(&mut self)
  Version::lead(&mut self, u32) -> Led
  Version::pending(&self, u32) -> &Call
  Version::answered(&mut self, &Event)
  Version::refuse_memory(&mut self)
  Version::standing(&self) -> &Standing
  Version::process(&self) -> &Process
nv_sequence
  run<K: SyscallKernel>(Vec<Version>, Option<&Filter>, K, u32, &Vec<u32>) -> Account<K>
nv_words
  enum Spelt { Whole, More }
  count(&Event) -> u32
  word(&Event, u32) -> u64
  EventBuf::make() -> Result<EventBuf, AllocError>
  EventBuf::clear(&mut self)
  EventBuf::put(&mut self, u64) -> Spelt
  EventBuf::event(&self) -> &Event
nv_room
  Room::make(K, u32, u32, &Vec<u32>) -> Result<(Room<K>, Vec<Reader<K>>, Lead<K>), AllocError>
  Room::finish(self, Vec<Left<K>>) -> Ended<K>
  struct Ended<K> { kernel: K, seen: Vec<u32> }
  Room::places(&self) -> u32
  Room::stations(&self) -> u32
  Reader::seen(&self) -> u32
  Reader::station(&self) -> u32
  Reader::lanes(&self) -> &Lanes
  Lead::seen(&self) -> u32
  Lead::station(&self) -> u32
  Lead::kernel(&self) -> &K
  Lead::opened(&self) -> u32
  Lead::fits(&self, u32, u32) -> bool
  Lead::reserve(&mut self, &Call) -> Result<(), AllocError>
  Lead::serve(&mut self, &Call)
  Lanes::start() -> Lanes
  Lanes::note(&mut self, &Event)
  Lanes::lane_of(&self, u32) -> u32
  Lanes::next(&self, u32) -> u32
  Lanes::lives(&self, u32) -> bool
  enum Cursor { At(u32), Gone }
  enum Owner { Held(u32), Free(u32), Closed(u32) }
  Room::look_head(&self, &mut Reader<K>) -> u32
  Room::read_word(&self, &mut Reader<K>, u32) -> u64
  Room::advance_step(&self, &mut Reader<K>)
  Room::look_cursor(&self, &mut Lead<K>, u32) -> Cursor
  Room::reader_looks(&self, &mut Reader<K>, u32) -> Cursor
  Room::write_word(&self, &mut Lead<K>, u32, u64)
  Room::publish_step(&self, &mut Lead<K>)
  Room::look_owner(&self, &mut Reader<K>) -> Owner
  Room::probe(&self, &mut Reader<K>, u32) -> bool
  Room::retire_step(&self, Lead<K>) -> Leaving<K>
  Room::take_step(&self, Reader<K>) -> Lead<K>
  Room::leave_step(&self, Leaving<K>) -> Left<K>
  Room::leave_reader(&self, Reader<K>) -> Left<K>
  Room::close_step(&self, Lead<K>) -> Leaving<K>
  Room::open_step(&self, &mut Lead<K>)
  Room::hand_step(&self, Lead<K>) -> Moving<K>
  Room::move_step(&self, Moving<K>) -> Reader<K>
nv_ring
  enum Placed { Ready, Waiting(u32) }
  advance<K: SyscallKernel>(&mut Reader<K>, &Room<K>)
  place<K: SyscallKernel>(&mut Lead<K>, &Room<K>) -> Placed
  publish<K: SyscallKernel>(&mut Lead<K>, &Room<K>, &Call)
nv_promotion
  enum Lower { AllGone, Alive(u32) }
  retire<K: SyscallKernel>(Lead<K>, &Room<K>) -> Left<K>
  close<K: SyscallKernel>(Lead<K>, &Room<K>) -> Left<K>
  leave<K: SyscallKernel>(Reader<K>, &Room<K>) -> Left<K>
  lower_gone<K: SyscallKernel>(&mut Reader<K>, &Room<K>) -> Lower
  take<K: SyscallKernel>(Reader<K>, &Room<K>) -> Lead<K>
  hand<K: SyscallKernel>(Lead<K>, &Room<K>) -> Reader<K>
nv_pool
  Pool::make(u32, u32) -> Result<Pool, AllocError>
  Pool::fits(&self, u32, u32) -> bool
  Pool::add(&mut self, u32) -> u32
  Pool::count(&self) -> u32
nv_lamport
  enum Polled { Event, Waiting, Free(u32), Closed(u32) }
  poll_merged<K: SyscallKernel>(&mut Reader<K>, &Room<K>, &mut EventBuf) -> Polled
nv_workers
  enum Turn { Moved, Waiting, Done }
  struct Ran<K> { room: Room<K>, left: Vec<Left<K>>, versions: Vec<Version> }
  Worker::lead(Version, Lead<K>) -> Result<Worker<K>, AllocError>
  Worker::reader(Version, Reader<K>) -> Result<Worker<K>, AllocError>
  Worker::turn<G: Gate>(&mut self, &Room<K>, Option<&Filter>, &G, u32, &Vec<u32>) -> Turn
  run_all<R: Threads + Wait + Sync, K: SyscallKernel, G: Gate + Sync>(&R, Room<K>, Vec<Worker<K>>, Option<&Filter>, &G, u32, &Vec<u32>, u32) -> Result<Ran<K>,
      AllocError>
nv_report
  write<S: Sink, K: SyscallKernel>(&mut S, &Account<K>) -> Put
  json<K: SyscallKernel>(&Account<K>) -> Result<Vec<u8>, AllocError>
nv_gen
  struct Made { versions: Vec<Vec<u8>>, script: Vec<u8>, rules: Vec<u8> }
  make(u32) -> Result<Made, AllocError>
nv_cli
  varan<R: Threads + Wait + Sync, F: Files, S: Sink, G: Gate + Sync>(&R, &Vec<String>, &mut F, &mut S, &G) -> u8
nv_sockets
  struct Connection { port: u32, input: Vec<u8>, output: Vec<u8> }
  SocketKernel::make(&Script) -> Result<SocketKernel, AllocError>
  SocketKernel::connections(&self) -> &[Connection]
  SocketKernel::inner(&self) -> &ScriptKernel
  write_connections<S: Sink>(&mut S, &SocketKernel) -> Put
nv_trace
  enum TraceFault { Magic, Count, Short(u32), Field(u32), Extra, Memory }
  enum CheckFault { Ended(u32), Shape(u32), Thread(u32), Reply(u32), Memory }
  write<S: Sink>(&mut S, &[Event]) -> Put
  read(&[u8]) -> Result<Vec<Event>, TraceFault>
  check<K: SyscallKernel>(&mut K, &[Event]) -> Result<(), CheckFault>
nv_inspect
  show<S: Sink>(&mut S, &Version, &ScriptKernel, Option<(u32, u32)>) -> Put
"""

OPENING, CLOSING = "(<[{", ")>]}"
CLAUSE = re.compile(r"\s*(?:requires|ensures|where|ghost)\b|\s*[{;]|\s*$")
CALL = re.compile(r"^( *)(pub )?(?:final )?fn (\w+)", re.M)
OWNER = re.compile(r"^(?:pub )?(impl|trait)(?:<[^{]*?>)?\s+(\w+)([^{]*)\{", re.M)
TYPE = re.compile(r"^pub (struct|enum|trait|type) (\w+)", re.M)


def end_of(text, at):
    """Where what opens at this place closes, one past it. The `>` of an arrow closes nothing."""
    depth = 0
    for place in range(at, len(text)):
        depth += text[place] in OPENING
        depth -= text[place] in CLOSING and text[place - 1:place + 1] != "->"
        if depth == 0:
            return place + 1
    return len(text)


def parts(text):
    """What stands between the commas of a list."""
    found, depth, begin = [], 0, 0
    for place, it in enumerate(text + ","):
        depth += it in OPENING
        depth -= it in CLOSING and text[place - 1:place + 1] != "->"
        if it == "," and depth == 0:
            found.append(text[begin:place].strip())
            begin = place + 1
    return [it for it in found if it]


def plain(text):
    """A type, or a whole form, as two of them are compared."""
    text = re.sub(r"'\w+\s*,?\s*", "", text)
    for name, written in LISTS.items():
        text = re.sub(rf"\b{name}\b", written, text)
    text = re.sub(r"\s*([^\w\s])\s*", r"\1", " ".join(text.split()))
    text = re.sub(r",([)>\]}])", r"\1", text).replace("<>", "")
    while (at := text.find("&Vec<")) >= 0:
        end = end_of(text, at + 4)
        text = f"{text[:at]}&[{text[at + 5:end - 1]}]{text[end:]}"
    return text


def call_at(text, at):
    """The form of the call whose name ends at this place: what stands behind its name."""
    generics = ""
    if text[at] == "<":
        end = end_of(text, at)
        generics, at = text[at:end], end
    end = end_of(text, at)
    types = [re.sub(r"^mut self$", "self", it) if re.search(r"\bself$", it) else it.partition(":")[2] for it in parts(text[at + 1:end - 1])]
    rest, answer = text[end:], ""
    if arrow := re.match(r"\s*->\s*", rest):
        stop = begin = arrow.end()
        while not CLAUSE.match(rest, stop):
            stop = end_of(rest, stop) if rest[stop] in OPENING else stop + 1
        answer = "->" + rest[begin:stop]
    return plain(f"{generics}({', '.join(it for it in types if it.strip() != 'Global')}){answer}")


def type_at(text, kind, name, at):
    """The form of the type whose name ends at this place."""
    if kind == "type":
        return plain(f"type {name}{text[at:text.index(';', at)]}")
    head = re.compile(r"(?:<[^{(;]*?>(?=\s*[{(;:]))?").match(text, at)
    generics = re.sub(r":\s*[\w +]+", "", head[0])
    at = re.compile(r"[({;]").search(text, head.end()).start()
    inside = text[at + 1:end_of(text, at) - 1] if text[at] != ";" else ""
    if kind == "trait":
        its = [f"{it[3]}{call_at(inside, it.end())}" for it in CALL.finditer(inside)]
    elif kind == "enum":
        its = parts(inside)
    else:
        its = [it.removeprefix("pub ") for it in parts(inside) if re.match(r"pub (?!ghost\b)", it)]
    opening, closing = ("(", ")") if text[at] == "(" else ("{", "}") if its else ("", "")
    return plain(f"{kind} {name}{generics}{opening}{', '.join(its)}{closing}")


def forms_in(text):
    """The forms of a source, by their names: a call's with its type, if it has one."""
    text = re.sub(r"//[^\n]*", "", text)
    owners = list(OWNER.finditer(text))
    for it in CALL.finditer(text):
        owner = next((it2 for it2 in reversed(owners) if it2.start() < it.start()), None) if it[1] else None
        if it[2]:
            name = f"{owner[2]}::{it[3]}" if owner else it[3]
            yield name, plain(name) + call_at(text, it.end())
    for it in TYPE.finditer(text):
        yield it[2], type_at(text, it[1], it[2], it.end())


class Code:
    """The public forms of crates, by crate and name. A name that a crate hands on from another one is that one's; a type's second name has its calls."""

    def __init__(self, sources):
        self.forms = {crate: {} for crate in sources}
        self.exports = {}
        for crate, files in sources.items():
            for name, text in files.items():
                for key, form in forms_in(text):
                    self.forms[crate].setdefault(key, set()).add(form)
            uses = re.findall(r"^pub use (\w+)::(?:\w+::)*(?:\{([^}]*)\}|(\w+));", files.get("lib", ""), re.M)
            self.exports[crate] = {it: place for place, many, one in uses for it in re.findall(r"\w+", many or one)}

    def of(self, crate, name):
        """The forms that a crate has by this name."""
        owner, _, call = name.rpartition("::")
        place = self.exports.get(crate, {}).get(owner or name)
        if place is None:
            return set()
        if place in self.forms:
            return self.of(place, name)
        found = set(self.forms[crate].get(name, ()))
        for alias in self.forms[crate].get(owner, ()):
            if it := re.match(rf"type {owner}=((\w+)<\w+>)$", alias):
                found |= self.named(it[2], call, owner, it[1])
        return found

    def named(self, base, call, owner, whole):
        """The calls of a type that has a name of its own where it is of one argument."""
        found = set()
        for forms in self.forms.values():
            for form in forms.get(f"{base}::{call}", ()):
                found.add(re.sub(rf"\b{base}<\w+>", owner, form.replace(f"{base}::{call}", f"{owner}::{call}", 1)))
        return found

    def has(self, crate, form):
        return plain(form) in self.of(crate, name_of(form))


def name_of(form):
    """The name by which a form is found."""
    return re.match(r"(?:struct |enum |trait |type )?(\w+(?:::\w+)*)", form)[1]


def listed(text):
    """The forms of a list, by crate and name. What is further in goes on with the line before it."""
    crate, found = "", {}
    for line in re.sub(r"\n {4,}", " ", text).strip().split("\n"):
        if line.startswith(" "):
            found[f"{crate}::{name_of(line.strip())}"] = (crate, line.strip())
        else:
            crate = line.strip()
    return found


def rows_of(page):
    """The rows of the page's table that name a form: the names, and the second and the third cell."""
    table = page.partition(f"\n{HEAD}\n")[2].partition("\n## ")[0]
    for line in table.split("\n"):
        if line.startswith("| `"):
            names, specified, here, *_ = [it.strip() for it in line.strip("| ").split(" | ")]
            yield re.findall(r"`([^`]+)`", names), specified, here


def row_faults(names, specified, here, forms, code):
    """What is wrong with a row."""
    last = {name.rpartition("::")[2] for name in names}
    built = {form for known in code.forms.values() for name, its in known.items() if name.rpartition("::")[2] in last for form in its}
    public = {*code.forms, *(name for known in code.forms.values() for name in known)}
    for name in names:
        if name not in forms:
            yield f"{PAGE} has a row of {name}, of which the specification has no form"
        elif code.has(*forms[name]) != specified.startswith(SAME):
            has = "hasn't" if specified.startswith(SAME) else "has"
            yield f"{PAGE} has a row of {name}, which the code {has} as it is specified"
    for it in re.findall(r"`([^`]+)`", specified):
        if not any(plain(it) in plain(forms[name][1]) for name in names if name in forms):
            yield f"{PAGE} has `{it}` as a part of the specified {names[0]}, which it isn't"
    for it in re.findall(r"`([^`]+)`", here):
        if it not in public and not any(plain(it) in form for form in built):
            yield f"{PAGE} has `{it}` as a part of what is here in place of {names[0]}, and the code hasn't"


def faults(forms, code, page):
    """What is wrong: a form that is neither in the code nor in the table, and each row that isn't so."""
    told = set()
    for names, specified, here in rows_of(page):
        told |= set(names)
        yield from row_faults(names, specified, here, forms, code)
    for name, (crate, form) in forms.items():
        if name not in told and not code.has(crate, form):
            yield f"{name} isn't in the code as it is specified, and {PAGE} has no row of it: {form}"


# Made-up code, by crate and file; made-up forms; and for each made-up table the names that have to be in what is wrong, in this order.
MADE = {
    "nv_a": {
        "lib": "mod bags;\npub use bags::{Bag, Kind, Lend, Tag, weigh};\npub use nv_b::count;\npub use kernel::Small;\n",
        "kernel": "pub type Small = Big<Few>;\n",
        "bags": """
/// A bag.
pub struct Bag<T: Copy> {
    pub size: u32,
    held: Vec<T>,
    pub ghost fits: { size ≤ 3 },
}
pub struct Tag(pub u32);
pub enum Kind {
    // none
    Empty,
    Full { at: u32 },
}
pub trait Lend: Send {
    ghost lent: { Self → ℕ };
    fn lend(&mut self, alloc: Global, name: &str) -> Result<u32, AllocError>
        ensures { result ≡ Ok 1 };
    fn back(&self, _size: u32) {}
}
pub fn weigh<R: Sync>(
    rt: &R,
    alloc: Global,
    mut bags: Vec<Bag<u32>>,
    names: &'static Vec<Vec<u8>>,
) -> [u32; 2]
    requires { 1 ≤ 2 }
{
    inner()
}
impl<T: Copy> Bag<T> {
    pub fn open(self, out: &mut [u8; 20]) -> (Bag<T>, Option<&[u8]>) {
    }
    fn inner(&self) -> u32 {
    }
}
fn secret(size: u32) -> u32 {
}
pub fn unexported(size: u32) -> u32 {
}
""",
    },
    "nv_b": {
        "lib": "pub use counts::count;\npub use big::Big;\n",
        "counts": "pub fn count(bags: &[u8]) -> u64 {\n}\n",
        "big": """
pub struct Big<A: Copy> {
    a: A,
}
impl<A: Copy> Big<A> {
    pub fn make(alloc: Global, n: u32) -> Result<Big<A>, AllocError> {
    }
}
""",
    },
}
MADE_FORMS = """
nv_a
  struct Bag<T> { size: u32 }
  struct Tag(u32)
  enum Kind { Empty, Full { at: u32 } }
  trait Lend { lend(&mut self, &str) -> Result<u32, AllocError>,
      back(&self, u32) }
  weigh<R: Sync>(&R, Vec<Bag<u32>>, &[Vec<u8>]) -> [u32; 2]
  Bag::open(self, &mut [u8; 20]) -> (Bag<T>, Option<&[u8]>)
  count(&[u8]) -> u64
  Small::make(u32) -> Result<Small, AllocError>
"""
OTHER_FORMS = [
    "struct Bag<T> { size: u64 }", "struct Bag<T> { size: u32, held: Vec<T> }", "struct Tag(u64)", "enum Kind { Full { at: u32 }, Empty }",
    "enum Kind { Empty, Full }", "trait Lend { lend(&mut self, &str) -> Result<u32, AllocError> }",
    "weigh<R>(&R, Vec<Bag<u32>>, &[Vec<u8>]) -> [u32; 2]", "weigh<R: Sync>(&R, &[Bag<u32>], &[Vec<u8>]) -> [u32; 2]",
    "weigh<R: Sync>(&R, Vec<Bag<u32>>, &[Vec<u8>])", "Bag::open(&self, &mut [u8; 20]) -> (Bag<T>, Option<&[u8]>)", "Bag::inner(&self) -> u32",
    "count(&[u8]) -> u32", "secret(u32) -> u32", "unexported(u32) -> u32", "Small::make(u32, u32) -> Result<Small, AllocError>", "gone(u32) -> u32",
]
DIFFERENT = "nv_a\n  count(&[u8]) -> u32\n  struct Tag(u32)\n"
ROW = "| `nv_a::count` | `-> u32` | `count(&[u8]) -> u64` of `nv_b` | many |"
TABLES = [
    (ROW, []),
    ("", ["nv_a::count"]),
    (ROW.replace("-> u32", "-> u16"), ["`-> u16`"]),
    (ROW.replace("-> u64", "-> u16"), ["`count(&[u8]) -> u16`"]),
    (ROW.replace("`nv_b`", "`nv_c`"), ["`nv_c`"]),
    (ROW.replace("::count", "::sum"), ["nv_a::sum", "`-> u32`", "`count", "nv_a::count isn't"]),
    (ROW.replace("| `-> u32`", "| the same form"), ["nv_a::count, which the code hasn't"]),
    (f"{ROW}\n| `nv_a::Tag` | the same form | a number | it is one |", []),
    (f"{ROW}\n| `nv_a::Tag` | `Tag(u32)` | `Tag(u32)` | it is one |", ["nv_a::Tag, which the code has as"]),
]


def own_faults():
    """What comes out otherwise of the made-up code and tables."""
    code = Code(MADE)
    yield from (f"made up: {it}" for it in faults(listed(MADE_FORMS), code, ""))
    for form in OTHER_FORMS:
        if code.has("nv_a", form):
            yield f"made up: {form} is found, and isn't there"
    for table, wanted in TABLES:
        found = list(faults(listed(DIFFERENT), code, f"# Page\n\n{HEAD}\n\n| Form | Specified |\n|---|---|\n{table}\n\n## More\n"))
        if len(found) != len(wanted) or not all(part in it for it, part in zip(found, wanted)):
            yield f"made up: {table} has {found}, in place of {wanted}"


def main():
    crates = [it for it in sorted((TOP / "crates").iterdir()) if (it / "src").is_dir()]
    code = Code({it.name: {file.stem: file.read_text() for file in sorted((it / "src").glob("*.rt"))} for it in crates})
    forms, page = listed(FORMS), (TOP / PAGE).read_text()
    wrong = [*own_faults(), *faults(forms, code, page)]
    differing = sum(not code.has(*it) for it in forms.values())
    tried = 1 + len(OTHER_FORMS) + len(TABLES)
    fine = f"forms: of {len(forms)} specified forms {differing} differ in the code, and {PAGE} has them; {tried} made-up cases, 0 wrong"
    print("\n".join(f"forms: {it}" for it in wrong) or fine)
    return 1 if wrong else 0


if __name__ == "__main__":
    sys.exit(main())
