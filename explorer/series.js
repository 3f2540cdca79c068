// The time series, the brush over it, and the window that plays. Times are bins here; dates are those of the zone.
import {answers} from './wire.js'
import {added, count, covered, filters, origin, plan, shares, view} from './choice.js'
const HEIGHT = 112
const STEPS = [1, 5, 15, 60, 300, 900, 3600, 10800, 21600, 43200, 86400, 604800, 2629800, 7889400, 31557600]
const element = document.getElementById('series'), brush = document.getElementById('brush'), button = document.getElementById('play')
const x = d3.scale.linear()
let span = null, stale = true     // the bins [from, to) of the axis, in rows of so many, and whether it is to be found anew
let growing = false, playing = false

const dateOf = (bin) => new Date(Date.parse(origin.origin) + 1000 * (plan.start + bin * plan.width))
// What a clock of the zone shows then, as if it were UTC's, and back. The Swedish write 2010-12-31 23:59:00.
let clockOf
function face(date) {
  clockOf ||= new Intl.DateTimeFormat('sv-SE', {timeZone: origin.zone, dateStyle: 'short', timeStyle: 'medium'})
  return new Date(clockOf.format(date).replace(' ', 'T') + 'Z')
}
function instant(clock) {
  const near = new Date(2 * clock - face(clock))
  return new Date(+near + (clock - face(near)))
}
export function day(bin) {
  const [from, to] = view.time || [0, 0], style = (to - from) * plan.width < 32 * 86400 && plan.width < 86400 ? {timeStyle: 'short'} : {}
  return new Intl.DateTimeFormat(undefined, {dateStyle: 'medium', ...style, timeZone: origin.zone}).format(dateOf(bin))
}
export const range = () => view.time ? `${day(view.time[0])} to ${day(view.time[1])}` : ''

// The ticks are whole hours, days or years of the zone.
function drawAxis() {
  const scale = d3.time.scale.utc().domain([span.from, span.to].map((bin) => face(dateOf(bin))))
  const clocks = scale.ticks(Math.max(2, Math.round(x.range()[1] / 105))), apart = (clocks[1] - clocks[0]) / 864e5
  const year = 'numeric', month = 'short', day = 'numeric', time = {hour: 'numeric', minute: 'numeric'}
  const fields = apart > 300 ? {year} : apart > 27 ? {month, year} : apart >= 1 ? {month, day} : {month, day, ...time}
  const words = new Intl.DateTimeFormat(undefined, {...fields, timeZone: 'UTC'})
  const anchor = (at) => at < 20 ? 'start' : at > x.range()[1] - 20 ? 'end' : 'middle'
  document.querySelector('#series .axis').innerHTML = clocks.map((clock) => {
    const at = x((instant(clock) - dateOf(0)) / 1000 / plan.width).toFixed(1), line = `<line x1="${at}" x2="${at}" y2="${HEIGHT}"/>`
    return `${line}<text x="${at}" y="${HEIGHT + 16}" text-anchor="${anchor(at)}">${words.format(clock)}</text>`
  }).join('')
}

// The first and the last bin that have records, by series that narrow down to them.
async function extent() {
  let from = 0, to = 2 ** 32, width = Infinity
  while (width > Math.ceil((to - from) / 1000)) {
    width = Math.ceil((to - from) / 1000)
    const line = `series ${from} ${width} ${Math.ceil((to - from) / width)}`, {of} = await answers([line])
    const some = of(line).rows.filter((row) => row[1]).map((row) => row[0])
    if (!some.length) return null
    from = some[0]
    to = Math.min(2 ** 32, some[some.length - 1] + width)
  }
  return [from, to]
}
export const refit = () => { stale = true }
export function setGrowing(now) {
  stale ||= growing && !now
  growing = now
}

// Fits the axis to the records, and leaves a tenth for those to come while they come.
export async function findSpan() {
  const bins = stale && await extent()
  if (!bins) return
  stale = false
  const [from, to] = bins, room = element.clientWidth, least = (to - from) * plan.width / (room / 3)
  const seconds = STEPS.find((each) => each >= least && each >= plan.width) || least
  const step = Math.max(1, Math.round(seconds / plan.width)), first = from - from % step
  const rows = Math.max(2, Math.ceil(((to - from) * (growing ? 1.1 : 1) + from - first) / step))
  span = {from: first, to: first + rows * step, step, rows}
  x.domain([span.from, span.to]).range([0, room])
}
export function questions(tiles) {
  if (!span) return {all: [], some: [], outside: []}
  const line = `series ${span.from} ${span.step} ${span.rows}`, outside = [`count time ${span.to} 4294967296`]
  if (span.from) outside.push(`count time 0 ${span.from}`)
  return {all: [line], some: covered(line, tiles, filters('time')), outside}
}

function outline(rows, share, most) {
  return rows.map(([bin], i) => {
    const left = x(bin), right = Math.max(left + 0.7, x(bin + span.step) - 0.5)
    return share[i] ? `M${left.toFixed(1)},${HEIGHT}v${(-HEIGHT * share[i] / most).toFixed(1)}H${right.toFixed(1)}V${HEIGHT}z` : ''
  }).join('') || 'M0,0'
}
// Whether records have come that are outside of the axis. It is found anew then.
export function outgrown({all, outside}, of) {
  const out = all.length ? outside.some((line) => of(line).rows[0]?.[0] > 0) : of('count').seen > 0
  stale ||= out
  return out
}

// Draws both, and gives the rows of the chosen.
export function draw({all, some}, of) {
  if (!all.length || !span) return []
  const rows = of(all[0]).rows, totals = added(rows, some.map(of)), [grey, hot, most] = shares(rows, totals)
  document.querySelector('#series .all').setAttribute('d', outline(rows, grey, most))
  document.querySelector('#series .some').setAttribute('d', outline(rows, hot, most))
  const [unit, size] = Object.entries({day: 86400, hour: 3600, minute: 60, second: 1}).find(([, size]) => span.step * plan.width >= size)
  const long = new Intl.NumberFormat(undefined, {style: 'unit', unit, unitDisplay: 'long', maximumFractionDigits: 0})
  const highest = count(d3.max(totals, (row) => row[1]))
  document.getElementById('peak').textContent = `; the highest is ${highest} in ${long.format(span.step * plan.width / size)}`
  drawAxis()
  drawBrush()
  return totals
}

export function drawBrush() {
  document.getElementById('range').textContent = range() || 'drag to choose a time'
  if (!span) return
  const time = view.time || [span.from, span.to], [left, right] = time.map((bin) => Math.max(0, Math.min(x.range()[1], x(bin))))
  Object.assign(brush.style, {left: `${left}px`, width: `${right - left}px`})
  brush.className = view.time ? 'on' : ''
  for (const grip of brush.children) {
    const {end} = grip.dataset, now = time[end === 'to' ? 1 : 0], text = end === 'both' ? range() || 'all' : day(now)
    const values = {min: span.from, max: span.to, now, text}
    for (const name in values) grip.setAttribute(`aria-value${name}`, values[name])
  }
}

// Bins from one row to another within the axis; all of it is no choice.
function choose(bins, changed, cause) {
  const from = Math.max(span.from, bins[0]), to = Math.min(span.to, bins[1])
  const time = from === span.from && to === span.to ? null : [from, to]
  if (from >= to || `${time}` === `${view.time}`) return
  view.time = time
  drawBrush()
  changed(cause)
}
const within = (time, by) => time.map((bin) => bin + Math.max(span.from - time[0], Math.min(span.to - time[1], by)))
function moved({end, at, time}, now) {
  const rows = (bins) => Math.round(bins / span.step) * span.step, here = span.from + rows(now - span.from)
  if (end === 'both') return within(time, rows(now - at))
  const other = end === 'from' ? time[1] : end === 'to' ? time[0] : span.from + rows(at - span.from)
  return d3.extent([here, other])
}

function makePointer(changed) {
  let grip = null
  const place = ({clientX}) => clientX - element.getBoundingClientRect().left
  element.onpointerdown = (event) => {
    if (!span || event.button) return
    const at = place(event), near = event.pointerType === 'mouse' ? 6 : 18, [left, right] = view.time?.map(x) || [-99, -99]
    const end = Math.abs(at - left) < near ? 'from' : Math.abs(at - right) < near ? 'to' : at > left && at < right ? 'both' : 'new'
    grip = {end, at: x.invert(at), time: view.time, from: at, moved: false}
    playing = false
    element.setPointerCapture(event.pointerId)
  }
  element.onpointermove = (event) => {
    if (!grip || !span) return
    grip.moved ||= Math.abs(place(event) - grip.from) > 3
    if (grip.moved) choose(moved(grip, x.invert(place(event))), changed, event.timeStamp)
  }
  element.onpointerup = () => {
    if (grip && !grip.moved && view.time) { view.time = null; changed() }
    grip = null
  }
  element.onpointercancel = () => { grip = null }
}

const KEYS = {ArrowLeft: -1, ArrowDown: -1, ArrowRight: 1, ArrowUp: 1, PageDown: -10, PageUp: 10, Home: -1e9, End: 1e9}
function makeKeys(changed) {
  brush.onkeydown = (event) => {
    if (!span || !(event.key in KEYS || event.key === 'Escape')) return
    event.preventDefault()
    playing = false
    if (event.key === 'Escape') { view.time = null; return changed() }
    const [from, to] = view.time || [span.from, span.to], {end} = event.target.dataset, by = KEYS[event.key] * span.step
    const one = end === 'from' ? [Math.min(from + by, to - span.step), to] : [from, Math.max(to + by, from + span.step)]
    choose(end === 'both' ? within([from, to], by) : one, changed, event.timeStamp)
  }
}

// The window goes on by some rows ten times a second, or as fast as all views are drawn, until it has reached the end.
async function play(redraw) {
  setPlaying(true)
  const size = Math.ceil(span.rows / 12) * span.step, by = Math.ceil(span.rows / 120) * span.step
  const [from, to] = view.time || [0, size]
  if (!view.time || to >= span.to) view.time = [span.from, Math.min(span.to, span.from + to - from)]
  while (playing && view.time) {
    const begun = performance.now()
    await redraw(begun)
    if (!span || !view.time || view.time[1] >= span.to) break
    await new Promise((go) => setTimeout(go, Math.max(0, 100 - (performance.now() - begun))))
    if (playing && view.time && span) view.time = within(view.time, by)
  }
  setPlaying(false)
}

function setPlaying(now) {
  playing = now
  button.textContent = now ? 'stop' : 'play'
  button.setAttribute('aria-pressed', now)
}
export function makeSeries(redraw) {
  makePointer(redraw)
  makeKeys(redraw)
  button.onclick = () => { if (playing) playing = false; else if (span) play(redraw) }
}
