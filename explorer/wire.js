// The wire to the run. The questions of a redraw go out as one message, and their replies come back as one.
const known = new Map()           // replies by question: good until one has seen more records
const gone = new Error('the connection is lost')
let socket, due = [], ended = false
export let fault = ''             // the last question that had no rows, where there was one
let newest = 0                    // the most records that any reply has seen

// Connects, and says where the connection is 'lost', or the run has 'ended'.
export function connect(told) {
  socket = new WebSocket(`ws://${location.host}/`)
  socket.onmessage = ({data}) => {
    const message = JSON.parse(data)
    ended = 'ended' in message
    if (ended) return told('ended')
    const {lines, tell} = due.shift()
    if (known.size > 5000) known.clear()
    message.forEach(([, reply], i) => {
      known.set(lines[i], reply)
      newest = Math.max(newest, reply.seen || 0)
      if (reply.fault) fault = `The run answers ${reply.fault} to: ${lines[i]}`
    })
    tell(message)
  }
  socket.onclose = () => {
    due.splice(0).forEach(({fail}) => fail(gone))
    if (!ended) told('lost')
    setTimeout(() => connect(told), 1000)
  }
}

function send(lines) {
  return new Promise((tell, fail) => {
    if (socket?.readyState !== WebSocket.OPEN) return fail(gone)
    socket.send(lines.join('\t'))
    due.push({lines, tell, fail})
  })
}

// Asks these questions until all replies have seen the same records, three times at most, since records may arrive between.
// Gives the replies by question, and how often and how long each was asked; a reply that is still good is not asked for again.
export async function answers(lines, fresh = false) {
  const all = [...new Set(lines)], got = new Map(), took = new Map(), begun = performance.now()
  for (let turn = 0; turn < 3; turn++) {
    if (!fresh || turn) all.filter((line) => known.get(line)?.seen === newest).forEach((line) => got.set(line, known.get(line)))
    const old = all.filter((line) => got.get(line)?.seen !== newest), message = old.length ? await send(old) : []
    message.forEach(([micros, reply], i) => {
      const [times, sum] = took.get(old[i]) || [0, 0]
      got.set(old[i], reply)
      took.set(old[i], [times + 1, sum + micros])
    })
  }
  return {of: (line) => ({rows: [], seen: newest, ...got.get(line)}), took, wire: performance.now() - begun}
}

// Runs what asks; a connection that is lost meanwhile is told where it closes.
export const whileConnected = (work) => work().catch((error) => { if (error !== gone) throw error })
