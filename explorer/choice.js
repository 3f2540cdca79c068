// What is chosen: values, a time, a part of the map; the filters that it makes; and its copy in the address bar.
export const chosen = {}          // for each category the values that were clicked; none is all
export const view = {time: null, cells: 8, at: null}    // time: bins [from, to), or all. at: where the map stands at first
export let plan, origin
export async function load() {
  [plan, origin] = await Promise.all(['plan.json', 'origin.json'].map((name) => fetch(name).then((answer) => answer.json())))
  plan.categories.forEach(({name}) => { chosen[name] = new Set() })
  read()
}
// The filters of all views but one, as the run reads them.
export function filters(but) {
  const words = plan.categories.filter(({name}) => name !== but && chosen[name].size)
    .map(({name, values}) => `${name}=${values.filter((value) => chosen[name].has(value)).map((value) => `"${value}"`).join('|')}`)
  return words.map((word) => ` with ${word}`).join('') + (view.time && but !== 'time' ? ` time ${view.time[0]} ${view.time[1]}` : '')
}

// What the map shows, cut to tiles of 64 pixels, or of more where that makes over 40: the rectangle of finest tiles, and its
// cover. Only `window` takes a rectangle, so any other question about it is asked of each tile of the cover.
export function region(map, finer = 2) {
  const level = Math.min(map.getZoom() + finer, plan.depth), side = 2 ** (map.getZoom() + 8 - level), tiles = []
  const {min, max} = map.getPixelBounds(), edge = (at) => Math.max(0, Math.min(2 ** level, Math.round(at / side)))
  const [x0, y0, x1, y1] = [min.x, min.y, max.x, max.y].map(edge)
  const cover = (z, x, y) => {
    const size = 2 ** (level - z), left = x * size, top = y * size
    if (left >= x1 || left + size <= x0 || top >= y1 || top + size <= y0) return
    if (left >= x0 && left + size <= x1 && top >= y0 && top + size <= y1) return tiles.push(`${z}/${x}/${y}`)
    for (const [dx, dy] of [[0, 0], [1, 0], [0, 1], [1, 1]]) cover(z + 1, 2 * x + dx, 2 * y + dy)
  }
  if (x0 < x1 && y0 < y1) cover(0, 0, 0)
  if (tiles.length > 40 && finer > 0) return region(map, finer - 1)
  return {tiles, box: [x0, y0, x1, y1].map((each) => each * 2 ** (plan.depth - level))}
}

// The same question of each tile of the cover.
export const covered = (question, tiles, rest) => tiles.map((tile) => question + (tile === '0/0/0' ? '' : ` in ${tile}`) + rest)
// The totals of the chosen, added up over the tiles of the cover, in rows like those of all.
export function added(like, replies) {
  const sum = like.map((row) => [row[0], 0])
  for (const {rows} of replies) rows.forEach((row, i) => { sum[i][1] += row[1] })
  return sum
}
// The totals of both, each as a share of its sum, and the greatest share.
const part = (rows, sum) => rows.map((row) => row[1] / sum)
export function shares(...totals) {
  const each = totals.map((rows) => part(rows, d3.sum(rows, (row) => row[1]) || 1))
  return [...each, d3.max(each, (part) => d3.max(part)) || 1]
}
// A number that stands before each value gives only their order.
export const label = (value, values) => values.every((each) => /^\d+ ./.test(each)) ? value.replace(/^\d+ /, '') : value

const numbers = new Intl.NumberFormat()
export const count = (number) => numbers.format(number)
// The names of the page's own words have a capital, which no category's name has.
export function write(map) {
  const {lat, lng} = map.getCenter(), at = `${map.getZoom()}/${lat.toFixed(4)}/${lng.toFixed(4)}`
  const words = new URLSearchParams({Map: at, Cells: view.cells})
  if (view.time) words.set('Time', view.time.join('-'))
  for (const name in chosen) chosen[name].forEach((value) => words.append(name, value))
  const hash = '#' + words.toString().replaceAll('%2F', '/')
  if (hash !== location.hash) history.replaceState(null, '', hash)
}

export function read() {
  const words = new URLSearchParams(location.hash.slice(1)), at = words.get('Map')?.split('/').map(Number)
  const time = words.get('Time')?.split('-').map(Number), cells = Number(words.get('Cells'))
  view.at = at?.length === 3 && at.every(Number.isFinite) ? at : null
  view.time = time?.length === 2 && time.every((bin) => Number.isSafeInteger(bin) && bin <= 2 ** 32) && time[0] < time[1] ? time : null
  if ([2, 4, 8, 16].includes(cells)) view.cells = cells
  for (const {name, values} of plan.categories) {
    chosen[name].clear()
    words.getAll(name).filter((value) => values.includes(value)).forEach((value) => chosen[name].add(value))
  }
}
