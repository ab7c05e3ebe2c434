// For page-test: measures the pages that are framed beside this script, as the browser has laid them out, and writes a line for each
// finding: which frame, of which sort, and what. Lines of the sorts "measured" and "shows" are no faults: that a frame was looked at, and
// what the tables and pictures say.
'use strict';

// Rounding of places, in pixels; letters may touch by as much as their boxes have room beyond the ink.
const ROUNDING = 1;
const TOUCHING = 3;

addEventListener('load', () => {
  const lines = [...document.querySelectorAll('iframe')].flatMap(measured);
  document.getElementById('findings').textContent = lines.join('\n') + '\n';
});

function measured(frame) {
  const page = frame.contentDocument;
  const found = [
    `measured ${page.querySelectorAll('text').length} texts`,
    ...broken(page),
    ...asked(frame.contentWindow),
    ...wide(page),
    ...pictures(page).flatMap(lettered),
    ...scaled(page),
    ...('shows' in frame.dataset ? shown(page) : []),
  ];
  return found.map((what) => `${frame.name} ${what.replace(/\s+/g, ' ')}`);
}

// What is no XML breaks a picture that stands alone.
function broken(page) {
  return [...page.querySelectorAll('parsererror')].map((error) => `broken ${error.textContent}`);
}

// The copy has a policy that lets it load nothing, and keeps what it was stopped from.
function asked(window) {
  return (window.asked || []).map((what) => `asks for ${what}`);
}

function wide(page) {
  const { scrollWidth, clientWidth } = page.documentElement;
  return scrollWidth > clientWidth ? [`wide ${scrollWidth} pixels in a window of ${clientWidth}`] : [];
}

function pictures(page) {
  return [...page.querySelectorAll('svg')].filter((picture) => !picture.parentElement?.closest('svg'));
}

function lettered(picture) {
  const around = picture.getBoundingClientRect();
  const texts = [...picture.querySelectorAll('text')].filter((text) => text.textContent.trim() !== '');
  const boxes = texts.map((text) => ({ words: text.textContent, box: text.getBoundingClientRect() }));
  const outside = boxes.filter(({ box }) => !within(box, around)).map(({ words }) => `outside "${words}" leaves its picture`);
  const overlaps = boxes.flatMap((one, index) =>
    boxes.slice(index + 1).filter((other) => meet(one.box, other.box)).map((other) => `overlap "${one.words}" and "${other.words}"`)
  );
  return [...outside, ...overlaps];
}

function within(box, around) {
  return box.width > 0 && box.left >= around.left - ROUNDING && box.right <= around.right + ROUNDING
    && box.top >= around.top - TOUCHING && box.bottom <= around.bottom + TOUCHING;
}

function meet(one, other) {
  const across = Math.min(one.right, other.right) - Math.max(one.left, other.left);
  const down = Math.min(one.bottom, other.bottom) - Math.max(one.top, other.top);
  return across > ROUNDING && down > TOUCHING;
}

// What is drawn is as long as its figure asks for, by the greatest of those on the same scale.
function scaled(page) {
  const panels = [...page.querySelectorAll('#changes svg')];
  const verdict = [...page.querySelectorAll('#verdict svg')].slice(0, 1);
  const sections = [...page.querySelectorAll('section[id^="currency-"]')];
  const scales = [verdict.flatMap(bars), panels.slice(0, 1).flatMap(bars), panels.slice(1).flatMap(bars), ...sections.map(ladder), ...sections.map(curves)];
  return scales.flatMap(disproportions);
}

function disproportions(drawn) {
  const greatest = drawn.reduce((most, one) => (one.figure > most.figure ? one : most), { figure: 0, length: 0 });
  const due = (one) => (greatest.figure === 0 ? 0 : (greatest.length * one.figure) / greatest.figure);
  return drawn.filter((one) => !(Math.abs(one.length - due(one)) <= ROUNDING)).map((one) => `scale ${one.length} for ${one.figure}`);
}

function number(text) {
  return Number(text.match(/-?[\d,.]+/)[0].replaceAll(',', ''));
}

// Bars from left to right, and how far the limit is from the left.
function bars(picture) {
  const texts = [...picture.querySelectorAll('.figure')].map((text) => text.textContent);
  const limit = texts.filter((text) => text.startsWith('limit'));
  const figures = texts.filter((text) => !text.startsWith('limit'));
  const beside = (line) => line.getBoundingClientRect().left - picture.getBoundingClientRect().left;
  return [
    ...[...picture.querySelectorAll('.loss, .gain')].map((bar, index) => [bar.getBoundingClientRect().width, figures[index]]),
    ...limit.flatMap((text) => [...picture.querySelectorAll('.limit')].map((line) => [beside(line), text])),
  ].map(([length, text]) => ({ length, figure: Math.abs(number(text)) }));
}

// The columns of a currency's table by scenario.
function columns(table) {
  const rows = [...table.tBodies[0].rows].map((row) => [...row.cells].slice(2).map((cell) => number(cell.innerText)));
  return (scenario) => rows.map((row) => row[scenario]);
}

function ladder(section) {
  const base = columns(section.querySelector('table'))(0);
  const drawn = [...section.querySelectorAll('.inflow, .outflow')];
  return base.map((flow, bucket) => ({ length: drawn[bucket].getBoundingClientRect().height, figure: Math.abs(flow) }));
}

// How far each point lies above the lowest of all, in the picture's own tenths of a pixel.
function curves(section) {
  const rates = columns(section.querySelectorAll('table')[1]);
  const heights = (line) => line.getAttribute('points').split(' ').map((point) => -Number(point.split(',')[1]));
  const points = [...section.querySelectorAll('polyline')].flatMap((line) => {
    const of_scenario = rates(Number(line.getAttribute('class').split('-')[1]));
    return heights(line).map((height, bucket) => ({ height, rate: of_scenario[bucket] }));
  });
  const lowest = points.reduce((least, point) => (point.rate < least.rate ? point : least));
  return points.map((point) => ({ length: (point.height - lowest.height) / 10, figure: point.rate - lowest.rate }));
}

// The title, the worst scenario, the rows of the tables and the figures in the pictures of verdict and changes, in the order of the page.
function shown(page) {
  const title = `shows title|${page.querySelector('h1').innerText}`;
  const said = [...page.querySelectorAll('#verdict > p')].map((sentence) => sentence.innerText).join(' ');
  const worst = `shows worst|${said.match(/greatest in scenario (\d+),/)?.[1] ?? 0}`;
  const parts = [...page.querySelectorAll('#verdict svg, #changes svg, thead tr, tbody tr')];
  return [title, worst, ...parts.map(part)].filter((line) => line !== '');
}

function part(element) {
  const section = element.closest('section')?.id ?? 'inbox';
  const sort = element.tagName === 'svg' ? ' picture' : element.closest('thead') ? ' head' : '';
  const words = sort === ' picture' ? labels(element) : row(element);
  return words.length === 0 ? '' : `shows ${[section + sort, ...words].join('|')}`;
}

function labels(picture) {
  const which = picture.closest('#verdict') ? '.figure.strong' : '.figure';
  return [...picture.querySelectorAll(which)].map((text) => text.textContent);
}

// Of a head, the numbers of scenarios or kinds; of a row, its head and its figures, and words where there are no figures.
function row(element) {
  const texts = (cells) => [...cells].map((cell) => cell.innerText);
  const inbox = element.closest('.inbox');
  const figures = element.querySelectorAll('th, td:not(.words)');
  if (element.closest('thead')) return inbox ? [] : texts(element.cells).flatMap((text) => text.match(/^\d+(?=\s)/) ?? []);
  return texts(inbox || figures.length === 1 ? element.cells : figures);
}
