// The heat map: a canvas for each tile of the screen, with a pixel for each cell, above the land.
import {answers, whileConnected} from './wire.js'
import {count, filters, plan, view} from './choice.js'
export let map
const shown = new Map()           // the tiles of the screen by z/x/y
// Each step is lighter than the one before it, so that the scale can be read without telling hues apart.
const heat = d3.scale.linear().domain([0, 0.25, 0.5, 0.75, 1])
  .range(['#4a3a9c', '#943d9c', '#df5a68', '#fba85c', '#fdfdd0']).interpolate(d3.interpolateLab)
export const palette = d3.range(256).map((i) => d3.rgb(heat(i / 255)))

export async function makeMap(changed) {
  const [land, own] = await Promise.all(['land.json', 'own.json'].map((name) => fetch(name).then((answer) => answer.json())))
  map = L.map('map', {minZoom: 1, maxZoom: Math.max(2, plan.depth - 4), maxBounds: [[-86, -200], [86, 200]], fadeAnimation: false})
  map.attributionControl.setPrefix('').addAttribution('Land: Natural Earth')
  map.createPane('land').style.zIndex = 150
  const ground = (shapes, style) => L.geoJSON(shapes, {interactive: false, renderer: L.canvas({pane: 'land', padding: 0.5}), pane: 'land',
    style, pointToLayer: (_, at) => L.circleMarker(at, {...style, pane: 'land', radius: 2})}).addTo(map)
  ground(land, {fillColor: '#1a222e', fillOpacity: 1, color: '#2e3a4b', weight: 0.7})
  ground(own, {fillColor: '#243041', fillOpacity: 0.6, color: '#5d7190', weight: 1})
  place()
  addCells(changed)
  map.on('drag moveend', changed)
  document.getElementById('fit').onclick = fit
  document.getElementById('cells').onchange = ({target}) => { view.cells = +target.value; changed() }
  const ramp = document.getElementById('ramp').getContext('2d')
  palette.forEach((color, i) => { ramp.fillStyle = color; ramp.fillRect(i, 0, 1, 1) })
}

// Where the address bar says, or else the world.
export function place() {
  const [zoom, ...centre] = view.at || [2, 20, 0]
  map?.setView(centre, zoom, {animate: false})
  document.getElementById('cells').value = view.cells
}

function addCells(changed) {
  const Cells = L.GridLayer.extend({
    createTile(at, done) {
      const tile = L.DomUtil.create('canvas')
      shown.set(`${at.z}/${at.x}/${at.y}`, {tile, done, room: plan.depth - at.z})
      changed()
      return tile
    }
  })
  new Cells({noWrap: true, bounds: [[-85, -180], [85, 180]], keepBuffer: 0, updateInterval: 50, updateWhenIdle: false}).addTo(map)
    .on('tileunload', ({coords: {z, x, y}}) => shown.delete(`${z}/${x}/${y}`))
}

// Shows all that has records: from the world down while it lies in a few tiles.
export const fit = () => whileConnected(async () => {
  let z = 0, rows = [[0, 0, 0]]
  do {
    const lines = rows.map(([z, x, y]) => `map ${Math.min(6, plan.depth - z)} in ${z}/${x}/${y}`), {of} = await answers(lines)
    rows = lines.flatMap((line) => of(line).rows)
    z = Math.min(z + 6, plan.depth)
  } while (rows.length && rows.length < 9 && z < plan.depth)
  const [west, east] = d3.extent(rows, (row) => row[1]), [north, south] = d3.extent(rows, (row) => row[2])
  const corner = (x, y) => map.unproject([x * 256, y * 256], z)
  if (rows.length) map.fitBounds([corner(west, north), corner(east + 1, south + 1)])
})
export function questions() {
  return [...shown].map(([name, part]) => {
    const down = Math.min(8 - Math.log2(view.cells), part.room)
    return {...part, name, cells: 2 ** down, line: `map ${down} in ${name}${filters()}`}
  })
}

// Colours go by the logarithm of a cell's total, from 1 to the most that a cell of the screen has.
export function draw(parts, of) {
  const most = Math.max(10, d3.max(parts, ({line}) => d3.max(of(line).rows, (row) => row[3])) || 0)
  for (const {tile, cells, line, done, name} of parts) {
    tile.width = tile.height = cells
    const context = tile.getContext('2d'), image = context.createImageData(cells, cells)
    for (const [, x, y, total] of of(line).rows) {
      const {r, g, b} = palette[Math.round(255 * Math.log(total) / Math.log(most))]
      image.data.set([r, g, b, 255], 4 * (y % cells * cells + x % cells))
    }
    context.putImageData(image, 0, 0)
    const part = shown.get(name)
    if (part?.done) { part.done = null; done(null, tile) }
  }
  drawScale(most)
}

// A label at each power of ten that has room, and at the end.
function drawScale(most) {
  const ticks = d3.range(0, 0.78 * Math.log10(most)).map((power) => 10 ** power), every = Math.ceil(ticks.length / 4)
  document.getElementById('ticks').innerHTML = [...ticks.filter((_, i) => i % every === 0), most]
    .map((tick) => `<span style="left:${100 * Math.log(tick) / Math.log(most)}%">${count(tick)}</span>`).join('')
  document.getElementById('unit').textContent = `${plan.weight || 'records'} in a cell`
}
