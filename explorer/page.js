// A page over a live run. Each view asks the run for what it shows, under the filters of all other views, and knows nothing of
// the data but what the plan says.
import {answers, connect, fault, whileConnected} from './wire.js'
import {chosen, count, filters, label, load, plan, read, region, view, write} from './choice.js'
import * as bars from './bars.js'
import * as heat from './heat.js'
import * as series from './series.js'
const byId = (id) => document.getElementById(id)
const STATES = {lost: 'There is no connection to the run. Trying again.', ended: 'The run has ended. These are its last numbers.'}
const measured = []               // what the last redraws took, for who measures the page
// When the first change came that is not drawn yet, the promise of its drawing, and what was drawn last.
let since = null, running = null, shown = {seen: -1}

// The questions of all views at this moment.
function questions() {
  const {tiles, box} = region(heat.map), choice = {time: view.time, values: plan.categories.map(({name}) => [...chosen[name]])}
  return {
    tiles, box, choice, head: ['count', `window ${box.join(' ')}${filters()}`], parts: heat.questions(), time: series.questions(tiles),
    bars: plan.categories.map((category) => ({category, ...bars.questions(category, tiles)}))
  }
}
const spent = (asked) => [d3.sum(asked, (each) => each[0]), d3.sum(asked, (each) => each[1])]
const words = ([asked, micros]) => `${count(asked)} asked, ${count(Math.round(micros / 100) / 10)} ms`

// How many questions a view has asked, what they took, and the records that it shows where it shows fewer than others.
function told(id, lines, {of, took}, seen) {
  const asked = lines.filter((line) => took.has(line)).map((line) => took.get(line)), small = document.querySelector(id)
  const least = d3.min(lines, (line) => of(line).seen), older = least < seen
  if (asked.length) small.textContent = words(spent(asked))
  if (older) small.textContent = `older: of ${count(least)} seen`
  small.classList.toggle('older', older)
  return older
}

function drawHead(total, seen) {
  byId('total').textContent = count(total)
  byId('what').textContent = plan.weight || (total === 1 ? 'record' : 'records')
  byId('seen').textContent = `of ${count(seen)} seen` + (rate ? `, ${count(rate)} a second arrive` : ', none arrive now')
  const chips = plan.categories.filter(({name}) => chosen[name].size).map(({name, values}) => ({
    text: `${name}: ${values.filter((value) => chosen[name].has(value)).map((value) => label(value, values)).join(', ')}`,
    clear: () => chosen[name].clear()}))
  if (view.time) chips.push({text: series.range(), clear: () => { view.time = null }})
  const buttons = d3.select('#chips').selectAll('button').data(chips)
  buttons.enter().append('button').attr('title', 'Take this filter off')
  buttons.text((chip) => chip.text).on('click', (chip) => { chip.clear(); refresh() })
  buttons.exit().remove()
}

function draw(asked, got, out) {
  const {of} = got, {parts, time, head} = asked, heads = [...head, ...time.outside]
  const lines = {'#took-map': parts.map(({line}) => line), '#took-time': [...time.all, ...time.some]}
  for (const {category, all, some} of asked.bars) lines[`#bars-${category.name} .took`] = [all, ...some]
  const seen = d3.max([...heads, ...Object.values(lines).flat()], (line) => of(line).seen)
  drawHead(of(head[1]).rows[0]?.[0] ?? 0, seen)
  heat.draw(parts, of)
  asked.bars.forEach((each) => bars.draw(each.category, each, of))
  const totals = series.draw(time, of)
  const older = Object.entries(lines).filter(([id, each]) => told(id, each, got, seen)).map(([id]) => id)
  if (of(head[1]).seen < seen) older.push('#total')
  if (out) older.push('#took-time') && (byId('took-time').textContent = 'older: some are outside of the axis')
  shown = {...asked, seen, older, totals, all: asked.bars.map(({all}) => of(all).rows), cells: parts.flatMap(({line}) => of(line).rows)}
}

async function redraw() {
  await Promise.resolve()         // what one event changes is asked for once
  const begun = since
  since = null
  await whileConnected(async () => {
    let asked, got, out = true
    for (let turn = 0; turn < 3 && out; turn++) {
      await series.findSpan()
      asked = questions()
      got = await answers([...asked.head, ...asked.parts.map(({line}) => line), ...asked.bars.flatMap(({all, some}) => [all, ...some]),
        ...Object.values(asked.time).flat()])
      out = series.outgrown(asked.time, got.of)
    }
    draw(asked, got, out && got.of('count').seen > 0)
    measure(begun, got)
    if (out) since ??= performance.now()
  })
}

function measure(begun, {took, wire}) {
  const [asked, micros] = spent([...took.values()]), entry = {ms: performance.now() - begun, wire, asked, micros}
  requestAnimationFrame(() => setTimeout(() => { entry.painted = performance.now() - begun }))
  if (measured.push(entry) > 1000) measured.shift()
  if (asked) byId('drawn').textContent = `all views drawn in ${count(Math.round(entry.ms))} ms\n${words([asked, micros])} in the run`
}

// Draws all views. What changes meanwhile is drawn after that, at once and not one by one.
function refresh(cause) {
  since ??= typeof cause === 'number' ? cause : performance.now()
  running ??= (async () => {
    while (since !== null && heat.map) await redraw()
    if (heat.map) write(heat.map)
  })().finally(() => { running = null })
  return running
}

let times = [], rate = 0, fitted = false, lost = false

// Asks how many records there are now, and for all views where there are more.
async function tick() {
  await whileConnected(async () => {
    const {of} = await answers(['count'], true), {seen} = of('count'), now = performance.now()
    if (lost) return location.reload()
    byId('state').textContent = fault
    times.push([now, seen])
    while (times.length > 2 && now - times[0][0] > 2500) times.shift()
    const before = rate
    rate = Math.max(0, Math.round(1000 * (seen - times[0][1]) / (now - times[0][0] || 1)))
    byId('dot').className = rate ? 'on' : ''
    series.setGrowing(rate > 0)
    const enough = seen >= 200 || seen && !rate
    if (enough && !fitted && !view.at) await heat.fit()
    fitted ||= enough
    if (shown.seen !== seen || rate !== before) await refresh()
  })
  setTimeout(tick, 200)
}

// Once it has been lost, a run that answers may be another one.
const changed = (state) => { lost = true; byId('state').textContent = STATES[state] }
window.explorer = {measured, get shown() { return shown }, get busy() { return running !== null }, get map() { return heat.map }}
window.addEventListener('resize', () => { series.refit(); refresh() })
window.addEventListener('hashchange', () => { read(); heat.place(); refresh() })
await load()
bars.makeBars(refresh)
series.makeSeries(refresh)
await heat.makeMap(refresh)
connect(changed)
tick()
