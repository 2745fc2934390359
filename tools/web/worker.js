// One run of a command. Each has a worker and an instance of its own, so that none finds what another left.
'use strict'
let compiled = null

onmessage = async ({data}) => {
  if (data.library) {
    compiled = WebAssembly.compile(data.library)
    compiled.catch(() => {})  // the run that waits for it says why
    return
  }
  try {
    postMessage(ran(new WebAssembly.Instance(await compiled, {}).exports, data))
  } catch (error) {
    postMessage({fault: error instanceof WebAssembly.RuntimeError ? 'it was stopped: ' + error.message : String(error)})
  }
}

const WITHOUT_MEMORY = {status: 6, text: new Uint8Array(0), ms: 0, memory: 0}

function ran(library, {command, input, rounds}) {
  const began = performance.now()
  const from = library.xl_room(BigInt(input.length || 1)), length = library.xl_room(8n)
  const first = 65536n + 4n * BigInt(input.length), room = library.xl_room(first)
  if (!from || !length || !room) return WITHOUT_MEMORY
  new Uint8Array(library.memory.buffer, Number(from), input.length).set(input)
  const call = (at, size) => command === 'gen' ? library.xl_gen(rounds, at, size, length) : library['xl_' + command](from, BigInt(input.length), at, size, length)
  const answer = (status, at, size) => ({
    status,
    text: new Uint8Array(library.memory.buffer, Number(at), Number(size)).slice(),
    ms: performance.now() - began,
    memory: library.memory.buffer.byteLength,
  })
  const told = () => new DataView(library.memory.buffer).getBigUint64(Number(length), true)
  const status = call(room, first)
  if (told() <= first || status === 6) return answer(status, room, status === 6 ? 0 : told())
  // its text didn't fit there: it is told again, into room enough
  const size = told()
  library.xl_free(room)
  const wide = library.xl_room(size)
  if (!wide) return WITHOUT_MEMORY
  const again = call(wide, size)
  return answer(again, wide, again === 6 ? 0 : size)
}
