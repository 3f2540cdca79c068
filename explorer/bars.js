// A bar chart for each category, under the filters of all others: a click chooses a value alone, a click with shift or by touch
// adds it or takes it off.
import {added, chosen, count, covered, filters, label, plan, shares} from './choice.js'
const ORDERED = 12                // a chart with more values has the greatest first, but numbers stand in their order
const areNumbers = (values) => values.every((value) => value.trim() && isFinite(value))
const inOrder = (values) => areNumbers(values) ? [...values].sort((one, other) => one - other) : values
export function makeBars(changed) {
  const sections = d3.select('#bars').selectAll('section').data(plan.categories).enter().append('section')
    .attr({id: ({name}) => `bars-${name}`, 'aria-label': ({name}) => name})
  sections.append('h2').text(({name}) => name)
  sections.append('small').attr('class', 'took')
  const bars = sections.append('div').attr('class', ({values}) => values.length > ORDERED ? 'values many' : 'values')
    .selectAll('button').data(({name, values}) => inOrder(values).map((value) => ({name, value, text: label(value, values)})))
    .enter().append('button').attr({class: 'bar', 'data-value': ({value}) => value, title: ({value}) => value})
  bars.html('<i></i><i></i><span></span><em></em>').select('span').text(({text}) => text)
  bars.on('click', ({name, value}) => {
    choose(chosen[name], value, d3.event.shiftKey || d3.event.pointerType === 'touch')
    changed()
  })
}

function choose(values, value, more) {
  const had = values.has(value), alone = values.size === 1
  if (more) return had ? values.delete(value) : values.add(value)
  values.clear()
  if (!had || !alone) values.add(value)
}
export const questions = ({name}, tiles) => ({all: `hist ${name}`, some: covered(`hist ${name}`, tiles, filters(name))})

export function draw({name, values}, {all, some}, of) {
  const rows = of(all).rows, totals = added(rows, some.map(of)), [grey, hot, most] = shares(rows, totals)
  const section = document.getElementById(`bars-${name}`), still = section.matches(':hover, :focus-within')
  section.classList.toggle('picked', chosen[name].size > 0)
  section.querySelectorAll('.bar').forEach((bar) => {
    const [ghost, share] = bar.children, i = values.indexOf(bar.dataset.value)
    bar.setAttribute('aria-pressed', chosen[name].has(values[i]))
    ghost.style.width = `${100 * grey[i] / most}%`
    share.style.width = `${100 * hot[i] / most}%`
    bar.lastChild.textContent = count(totals[i]?.[1] ?? 0)
    if (rows.length > ORDERED && !still && !areNumbers(values)) bar.style.order = -rows[i][1]
  })
}
