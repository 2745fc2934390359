"""A WebAssembly module of the library's LLVM module: its code for another processor, with a heap.

Rattle itself links no library for WebAssembly that takes memory, so the target is changed here. Both have 64 bits, and
one layout of all types."""
import os
import re
import subprocess

HERE = os.path.dirname(os.path.realpath(__file__))
STACK = 8388608
LAYOUT = 'e-m:e-p:64:64-p10:8:8-p20:8:8-i64:64-i128:128-n32:64-S128-ni:1:10:20'
# The words with which the kit compiles for this target.
WORDS = (
    '--target=wasm64-unknown-unknown -mcpu=lime1 -mllvm -expand-div-rem-bits=64 -mllvm -expand-fp-convert-bits=64 '
    '-ffunction-sections -fdata-sections -mllvm -trap-unreachable -mllvm -disable-machine-licm '
    '-mllvm -disable-postra-machine-licm -mllvm -sink-common-insts=false --no-default-config -no-canonical-prefixes '
    '-Wno-override-module -c -O2'
).split()
OF_HEAP = ['-fwrapv', '-ffreestanding', '-fno-builtin-malloc', '-mbulk-memory', '-x', 'c', os.path.join(HERE, 'heap.c')]
OF_X86 = r' (sanitize_address|"(frame-pointer|probe-stack|stack-probe-size|target-cpu|target-features)"="[^"]*")'
CUSTOM, IMPORTS, FUNCTIONS, TABLES, MEMORIES, EXPORTS, ELEMENTS = 0, 2, 3, 4, 5, 7, 9


class Refused(Exception):
    """The module isn't as it must be."""


def run(*words):
    ended = subprocess.run(words, stdin=subprocess.DEVNULL, capture_output=True, text=True, errors='replace')
    if ended.returncode:
        raise Refused((ended.stdout + ended.stderr).strip()[-2000:])


def retargeted(text, names):
    """The module's text for WebAssembly, with these functions exported.

    For x86-64 the upper bits of a small result say nothing, and WebAssembly hands all 32 to the host: so they are zero."""
    text = re.sub(r'(?m)^target datalayout = .*', 'target datalayout = "%s"' % LAYOUT, text, count=1)
    text = re.sub(r'(?m)^target triple = .*', 'target triple = "wasm64-unknown-unknown"', text, count=1)
    text = re.sub(r'(?m)^attributes #.*', lambda it: re.sub(OF_X86, '', it[0]).replace('{ }', '{ nounwind }'), text)
    one_of = '|'.join(names)
    if not re.search(r'(?m)^define [^@\n]*@(%s)\(' % one_of, text):
        # a build without proofs is a program, which exports nothing: its own functions take the names
        text = re.sub(r'@"\w+::(%s)"' % one_of, r'@\1', text)
    one = r'(?m)^define (?:internal )?(noundef )?(?:zeroext )?(i8) @(%s)\((.*)\)( #\d+)' % one_of
    return re.sub(one, r'define \1zeroext \2 @\3(\4)\5 "wasm-export-name"="\3"', text)


def stop_on_wide_statuses(text, names):
    """Ends it if an export isn't one that hands a host a status of 8 bits, with zeros above them."""
    found = re.findall(r'(?m)^define (?:noundef )?zeroext i8 @(\w+)\(.*"wasm-export-name"="(\w+)"', text)
    if sorted(found) != sorted((name, name) for name in names):
        raise Refused('the module has other exports than the library: %s' % ' '.join(sorted(it for it, _ in found)))


def make(kit, module, names, folder):
    """The bytes of the WebAssembly module of an LLVM module."""
    clang, text, objects = kit + '/toolchain/bin/clang', folder + '/module.ll', [folder + '/module.o', folder + '/heap.o']
    x86 = ['--target=x86_64-unknown-linux-gnu', '-Wno-override-module', '-x', 'ir', module, '-S', '-emit-llvm']
    run(clang, *x86, '-O0', '-Xclang', '-disable-llvm-passes', '-o', text)
    with open(text, encoding='utf-8') as file:
        said = retargeted(file.read(), names)
    stop_on_wide_statuses(said, names)
    with open(text, 'w', encoding='utf-8') as file:
        file.write(said)
    run(clang, *WORDS, '-x', 'ir', text, '-o', objects[0])
    run(clang, *WORDS, *OF_HEAP, '-o', objects[1])
    run(kit + '/toolchain/bin/llvm-ar', 'rcs', folder + '/library.a', *objects)
    link = [kit + '/bin/rattle-link', '--target', 'wasm64-unknown-unknown', '--toolchain', kit + '/toolchain']
    run(*link, '--stack', str(STACK), '-o', folder + '/library.wasm', folder + '/library.a')
    with open(folder + '/library.wasm', 'rb') as file:
        return without_unread(file.read())


def number(data, at):
    """An unsigned number at a place, and the place behind it."""
    value = shift = 0
    while True:
        value, shift, at = value | (data[at] & 127) << shift, shift + 7, at + 1
        if data[at - 1] < 128:
            return value, at


def sections(data):
    """Each section of a module: its kind, its content, and all its bytes."""
    if data[:8] != b'\0asm\1\0\0\0':
        raise Refused('it is no WebAssembly module')
    at = 8
    while at < len(data):
        size, begin = number(data, at + 1)
        yield data[at], data[begin : begin + size], data[at : begin + size]
        at = begin + size


def without_unread(data):
    """The module without names, and without a table that has no entry: not every engine knows tables of 64 bits."""
    kinds = [kind for kind, _, _ in sections(data)]
    unread = [CUSTOM] if ELEMENTS in kinds else [CUSTOM, TABLES]
    return data[:8] + b''.join(whole for kind, _, whole in sections(data) if kind not in unread)


def exports_of(data):
    """What a module exports: names, each with its kind (0 a function, 2 a memory, 3 a number)."""
    for kind, content, _ in sections(data):
        if kind == EXPORTS:
            count, at = number(content, 0)
            found = {}
            for _ in range(count):
                size, at = number(content, at)
                name, what = content[at : at + size].decode(), content[at + size]
                found[name] = what
                _, at = number(content, at + size + 1)
            return found
    return {}


def first_pages(data):
    """The pages that the module's memory has at first."""
    content = next(content for kind, content, _ in sections(data) if kind == MEMORIES)
    return number(content, 2)[0]


def stop_on_others(data, names):
    """Ends it if the module imports anything, or exports other functions than those of the library and the heap."""
    if any(kind == IMPORTS for kind, _, _ in sections(data)):
        raise Refused('the module imports something, and is to need nothing of its host')
    functions = sorted(name for name, kind in exports_of(data).items() if kind == 0)
    wanted = sorted([*names, 'xl_free', 'xl_room'])
    if functions != wanted:
        raise Refused('the module exports %s, and not %s' % (' '.join(functions), ' '.join(wanted)))
