// The program: each run has a worker of its own, which is ended by the next run.
'use strict'
const byId = id => document.getElementById(id)
const through = async (bytes, stream) => new Uint8Array(await new Response(new Blob([bytes]).stream().pipeThrough(stream)).arrayBuffer())
const fromBase64 = text => Uint8Array.from(atob(text), it => it.charCodeAt(0))

// one character for each byte
function latin(bytes) {
  let text = ''
  for (let at = 0; at < bytes.length; at += 8192) text += String.fromCharCode.apply(null, bytes.subarray(at, at + 8192))
  return text
}

const engine = {
  library: null, source: null, spare: null, running: null,

  async open() {
    this.library = await through(fromBase64(byId('library').textContent), new DecompressionStream('gzip'))
    this.source = URL.createObjectURL(new Blob([byId('worker').textContent], {type: 'text/javascript'}))
    this.spare = this.worker()
  },

  worker() {
    const made = new Worker(this.source)
    made.postMessage({library: this.library})
    return made
  },

  // Ends the run that goes on: whoever waits for it is told that it was stopped.
  stop() {
    if (this.running) this.running({stopped: true})
  },

  run(command, input, rounds = 0) {
    this.stop()
    const worker = this.spare
    this.spare = this.worker()
    return new Promise(done => {
      const end = told => {
        worker.terminate()
        if (this.running === end) this.running = null
        done(told)
      }
      this.running = end
      worker.onmessage = ({data}) => end(data)
      worker.onerror = event => end({fault: event.message})
      worker.postMessage({command, input, rounds})
    })
  },
}
