"""Small WebAssembly modules that tests make, and one whose memory they limit."""
import os
import sys

sys.path.insert(0, os.path.join(os.path.dirname(os.path.dirname(os.path.realpath(__file__))), 'web'))
import webassembly

PLAIN = b'\0asm\1\0\0\0'


def vector(*items):
    return bytes([len(items)]) + b''.join(items)


def section(kind, content):
    return bytes([kind, len(content)]) + content


def named(name, kind, number=0):
    return bytes([len(name)]) + name.encode() + bytes([kind, number])


def exporting(*names):
    return section(webassembly.EXPORTS, vector(*(named(it, 0) for it in names), named('memory', 2)))


# The module with a memory that may have no more than so many pages: the flag of the memory's limits gets the bit for it.
LIMITED = '''
function limited(module, pages) {
  const bytes = [...module]
  for (let at = 8; at < bytes.length;) {
    let size = 0, shift = 0, begin = at + 1
    do size |= (bytes[begin] & 127) << shift, shift += 7; while (bytes[begin++] & 128)
    if (bytes[at] === 5) {
      const content = bytes.slice(begin, begin + size), most = [pages & 127 | 128, pages >> 7 & 127 | 128, pages >> 14]
      content[1] |= 1
      return Uint8Array.from([...bytes.slice(0, at), 5, size + 3, ...content, ...most, ...bytes.slice(begin + size)])
    }
    at = begin + size
  }
}
'''
