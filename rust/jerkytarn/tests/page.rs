//! The page in a real browser: it shows the counts that the library gave, meets no error, and answers to the keyboard.
//! Needs chromium (`tests/setup` installs it), or the browser that CHROMIUM names.

mod common;
use common::*;
use jerkytarn::report::grouped;
use second::gen::{Damage, Kind};
use second::job::{read, Job};
use std::fs;
use std::path::Path;
use std::process::Command;

/// What the browser writes when it opens a file at an address behind `#`.
fn browse(folder: &Folder, what: &str, file: &Path, address: &str) -> Vec<u8> {
    let browser = std::env::var("CHROMIUM").unwrap_or_else(|_| "chromium".into());
    let mut command = Command::new("timeout"); // a browser that hangs fails the test
    command.args(["120", &browser, "--headless", "--no-sandbox", "--disable-gpu", "--disable-dev-shm-usage"]);
    command.args(["--window-size=1400,1000", what]);
    command.arg(format!("--user-data-dir={}", folder.path("profile").display()));
    let output = command.arg(format!("file://{}#{address}", file.display())).output();
    let output = output.unwrap_or_else(|fault| panic!("timeout: {fault}"));
    let told = text(&output.stderr);
    assert!(output.status.success(), "{browser} ended with {}; tests/setup installs it\n{told}", output.status);
    output.stdout
}

/// The page after its script has run, without an error.
fn opened(folder: &Folder, page: &Path, address: &str) -> String {
    let page = text(&browse(folder, "--dump-dom", page, address));
    let root = &page[page.find("<html").expect("a page")..];
    let root = &root[..root.find('>').unwrap()];
    assert!(!root.contains("data-error"), "the page's script reports an error: {root}");
    assert!(root.contains("data-ready"), "the page's script did not come to its end: {root}");
    page
}

/// What the page says under a name.
fn fact<'a>(page: &'a str, name: &str) -> &'a str {
    let start = page.find(&format!("data-fact=\"{name}\"")).unwrap_or_else(|| panic!("the page has no {name}"));
    let rest = &page[start..];
    let rest = &rest[rest.find('>').unwrap() + 1..];
    &rest[..rest.find('<').unwrap()]
}

/// The nets that the page lists for a place.
fn nets(page: &str) -> Vec<usize> {
    let start = page.find("data-nets=\"").expect("a list of nets") + 11;
    let rest = &page[start..];
    rest[..rest.find('"').unwrap()].split_whitespace().map(|number| number.parse().unwrap()).collect()
}

/// A planned job, from the library and a second reading of the text.
struct Planned {
    job: Job,
    answer: Vec<u8>,
    vias: Vec<String>,
}

fn planned(text_of_job: &[u8]) -> Planned {
    let enough = layerplan::Lengths::enough(layerplan::TEXT_MOST);
    let mut order = vec![layerplan::Entry::default(); enough.order];
    let mut answer = vec![0; enough.answer];
    layerplan::plan(text_of_job, &mut vec![0; enough.work], &mut order, &mut answer).unwrap();
    let lent = second::job::Lengths { work: enough.work, order: enough.order, answer: enough.answer, print: None };
    let print = text(&library(text_of_job).unwrap());
    let vias = print.lines().filter_map(|line| line.strip_prefix("vias=")).map(str::to_string).collect();
    Planned { job: read(text_of_job, lent).unwrap(), answer, vias }
}

impl Planned {
    /// The nets on an edge of a layer.
    fn on(&self, layer: u8, edge: usize) -> Vec<usize> {
        let edges = self
            .job
            .nets
            .iter()
            .enumerate()
            .flat_map(|(place, net)| net.edges.iter().map(move |edge| (place + 1, *edge)));
        let placed = edges.zip(&self.answer);
        placed
            .filter(|((_, other), other_layer)| *other == edge && **other_layer == layer)
            .map(|((net, _), _)| net)
            .collect()
    }

    /// How many edges of a net are kept, and how many dropped.
    fn kept_and_dropped(&self, net: usize) -> (usize, usize) {
        let before: usize = self.job.nets[..net - 1].iter().map(|net| net.edges.len()).sum();
        let layers = &self.answer[before..before + self.job.nets[net - 1].edges.len()];
        let dropped = layers.iter().filter(|layer| **layer == 0).count();
        (layers.len() - dropped, dropped)
    }

    /// The edge of a layer that most nets use.
    fn busiest(&self) -> Option<(u8, usize)> {
        let edges = self.job.nets.iter().flat_map(|net| &net.edges);
        let mut counts = std::collections::HashMap::new();
        for (edge, layer) in edges.zip(&self.answer).filter(|(_, layer)| **layer > 0) {
            *counts.entry((*layer, *edge)).or_insert(0usize) += 1;
        }
        counts.into_iter().max_by_key(|(place, count)| (*count, *place)).map(|(place, _)| place)
    }
}

/// Opens the page of a job at this edge and net, and holds what it says to the library.
fn expect_counts(folder: &Folder, page: &Path, planned: &Planned, layer: u8, edge: usize, net: usize) {
    let (tile, east) = planned.job.grid.named(edge);
    let (x, y) = (tile % planned.job.grid.width, tile / planned.job.grid.width);
    let way = if east { 'e' } else { 'n' };
    let shown = opened(folder, page, &format!("edge={layer},{x},{y},{way}&net={net}"));
    let on = planned.on(layer, edge);
    let capacity = planned.job.capacity[layer as usize - 1][edge];
    assert_eq!(fact(&shown, "edge"), format!("{x},{y},{way}"));
    assert_eq!(fact(&shown, "capacity"), grouped(capacity));
    assert_eq!(fact(&shown, "used"), grouped(on.len() as u64));
    assert_eq!(fact(&shown, "overflow"), grouped((on.len() as u64).saturating_sub(capacity)));
    assert_eq!(nets(&shown), on);
    assert_eq!(fact(&shown, "net vias"), planned.vias[net - 1]);
    let (kept, dropped) = planned.kept_and_dropped(net);
    assert_eq!(fact(&shown, "edges"), kept.to_string());
    if planned.answer[..planned.job.entries()].contains(&0) {
        assert_eq!(fact(&shown, "dropped edges"), dropped.to_string());
    }
}

fn drawn_page(folder: &Folder, job: &[u8]) -> std::path::PathBuf {
    let file = folder.file("a.job", job);
    let page = folder.path("a.html");
    let output = run(["draw", file.to_str().unwrap(), "-o", page.to_str().unwrap()]);
    assert_eq!(status(&output), 0, "{}", text(&output.stderr));
    page
}

#[test]
fn the_page_shows_what_the_library_gave() {
    let folder = Folder::new();
    for (seed, kind) in [(1, Kind::Congested), (2, Kind::Branchy), (4, Kind::Giant), (9, Kind::Largest)] {
        let job = drawn(seed, Some(kind), Some(Damage::None));
        let planned = planned(&job);
        let page = drawn_page(&folder, &job);
        let (layer, edge) = planned.busiest().expect("a net with edges");
        let net = *planned.on(layer, edge).last().unwrap();
        expect_counts(&folder, &page, &planned, layer, edge, net);
        // the last edge, on the highest layer that carries it
        let own = jerkytarn::job::read(&job).unwrap();
        let last = own.grid.edges() - 1;
        if let Some(layer) = (1..=own.layers).rev().find(|layer| own.carries(*layer, own.grid.named(last).1)) {
            expect_counts(&folder, &page, &planned, layer as u8, last, 1);
        }
    }
}

#[test]
fn jobs_without_edges_or_nets_have_pages_too() {
    let folder = Folder::new();
    let head = "width=1\nheight=1\nlayers=2\nalpha=0\nbeta=0\ngamma=0\neast=\nnorth=\neast=\nnorth=\n";
    for nets in ["nets=0\n", "nets=1\nnet=1\npins=0,0,1;0,0,2\nedges=\n"] {
        let page = drawn_page(&folder, format!("{head}{nets}").as_bytes());
        let shown = opened(&folder, &page, "tile=0,0");
        assert_eq!(fact(&shown, "vias"), if nets == "nets=0\n" { "0" } else { "1" });
    }
    let column = drawn(3, Some(Kind::Thin), Some(Damage::None));
    opened(&folder, &drawn_page(&folder, &column), "edge=9,9,9,e&net=99999&tile=x&&=");
}

#[test]
fn the_largest_block_opens_fast_enough() {
    let folder = Folder::new();
    let page = drawn_page(&folder, &drawn(12, Some(Kind::Largest), Some(Damage::None)));
    let shown = opened(&folder, &page, "");
    let ready = shown.split("data-ready=\"").nth(1).unwrap();
    let ready: u32 = ready[..ready.find('"').unwrap()].parse().unwrap();
    println!("ready after {ready} ms");
    // about half a second on two cores; a busy machine is given more
    assert!(ready < 5000, "ready after {ready} ms");
}

/// What the steps below are told with; run inside the page.
const HARNESS: &str = r#"
<script>
{
  const told = [];
  const expect = (what, value, wanted) => { if (JSON.stringify(value) !== JSON.stringify(wanted)) told.push(`${what}: ${JSON.stringify(value)}`); };
  const press = (target, key) => target.dispatchEvent(new KeyboardEvent('keydown', { key, bubbles: true, cancelable: true }));
  const at = () => state.at && [state.at.layer, state.at.x, state.at.y, state.at.way];
  STEPS
  root.dataset.interaction = told.join('; ') || 'as expected';
}
</script>
</body>"#;

/// Runs these steps in the page of a job, each with what should then be so, and tells what was not.
fn interaction(job: &[u8], steps: &str) -> String {
    let folder = Folder::new();
    let page = drawn_page(&folder, job);
    let harness = HARNESS.replace("STEPS", steps);
    let with_steps = fs::read_to_string(&page).unwrap().replace("</body>", &harness);
    let page = folder.file("keys.html", with_steps.as_bytes());
    let shown = opened(&folder, &page, "");
    let told = shown.split("data-interaction=\"").nth(1).expect("the steps were taken");
    told[..told.find('"').unwrap()].to_string()
}

/// Keys and clicks on the page of the example.
const KEYS_AND_POINTER: &str = r#"
  const canvas = maps[0].canvas;
  canvas.focus();
  expect('focus', at(), [1, 0, 0, '']);
  press(canvas, 'ArrowRight');
  expect('right to the edge', at(), [1, 0, 0, 'e']);
  press(canvas, 'ArrowRight');
  expect('right to the tile', at(), [1, 1, 0, '']);
  press(canvas, 'ArrowLeft');
  press(canvas, 'PageUp');
  expect('up a layer', at(), [2, 0, 0, 'e']);
  expect('focus of layer 2', document.activeElement === maps[1].canvas, true);
  press(maps[1].canvas, 'n');
  expect('net of the edge', state.net, 1);
  press(maps[1].canvas, 'Enter');
  expect('held', [state.held, location.hash], [true, '#edge=2,0,0,e&net=1']);
  press(document.body, 'Escape');
  expect('escape', [state.at, state.net, state.held], [null, 0, false]);
  press(document.body, '/');
  expect('search has the focus', document.activeElement.id, 'search');
  byId('search').value = '2';
  byId('search').dispatchEvent(new Event('input'));
  expect('found', list.shown, [2]);
  byId('search').value = '2,0';
  byId('search').dispatchEvent(new Event('input'));
  expect('through a tile', list.shown, [1]);
  press(byId('search'), 'Enter');
  expect('chosen', state.net, 1);
  byId('search').value = '';
  byId('sort').value = 'turn';
  byId('sort').dispatchEvent(new Event('change'));
  expect('by turn', list.shown, [2, 1]);
  press(byId('list'), 'End');
  press(byId('list'), 'Home');
  press(byId('list'), 'Enter');
  expect('from the list', state.net, 2);
  const box = canvas.getBoundingClientRect();
  const [x, y] = maps[0].middle(1.5, 0);
  canvas.dispatchEvent(new PointerEvent('pointermove', { clientX: box.left + x, clientY: box.top + y, bubbles: true }));
  expect('pointed at', at(), [1, 1, 0, 'e']);
  expect('tip', byId('tip').textContent, 'Layer 1, 1,0 → 2,0: 1 of 1 used');
  canvas.dispatchEvent(new MouseEvent('click', { clientX: box.left + x, clientY: box.top + y, bubbles: true }));
  expect('held by a click', [at(), state.held], [[1, 1, 0, 'e'], true]);
  byId('theme').click();
  byId('theme').click();
  expect('dark', [root.dataset.theme, palette.paper], ['dark', '#12161c']);
  press(canvas, '+');
  expect('large', maps[0].figure.classList.contains('large'), true);
"#;

#[test]
fn the_page_answers_to_keys_and_pointer() {
    assert_eq!(interaction(&fs::read(EXAMPLE).unwrap(), KEYS_AND_POINTER), "as expected");
}

/// The page of the example with directions: layers 1 and 3 carry east edges, layer 2 north edges.
const DIRECTIONS: &str = r#"
  expect('titles', [...document.querySelectorAll('figcaption strong')].map((title) => title.textContent), ['Layer 1 (h)', 'Layer 2 (v)', 'Layer 3 (h)', 'Vias']);
  expect('legend', byId('runs').hidden, false);
  expect('figures', byId('figures').textContent.includes('3 layers (h,v,h) ·'), true);
  expect('limits', byId('figures').textContent.endsWith('at most 2; limit of a layer east 1, north 0)'), true);
  const canvas = maps[1].canvas;
  canvas.focus();
  expect('focus', at(), [2, 0, 0, '']);
  press(canvas, 'ArrowRight');
  expect('right, where no east edge is', at(), [2, 1, 0, '']);
  press(canvas, 'ArrowUp');
  expect('up to the north edge', at(), [2, 1, 0, 'n']);
  press(canvas, 'ArrowRight');
  expect('to the edge beside it', at(), [2, 2, 0, 'n']);
  expect('words of the edge', document.querySelector('#place h3').textContent, 'Layer 2 (v), 2,0 → 2,1');
  press(canvas, 'PageUp');
  expect('a layer without north edges', at(), [3, 2, 0, '']);
  press(maps[2].canvas, 'ArrowLeft');
  expect('left to the east edge', at(), [3, 1, 0, 'e']);
  press(maps[2].canvas, 'PageDown');
  expect('a layer without east edges', at(), [2, 1, 0, '']);
  const box = canvas.getBoundingClientRect();
  const point = (x, y) => {
    const [left, top] = maps[1].middle(x, y);
    canvas.dispatchEvent(new PointerEvent('pointermove', { clientX: box.left + left, clientY: box.top + top, bubbles: true }));
  };
  point(0.3, 0);
  expect('pointed between tiles', at(), [2, 0, 0, '']);
  point(0, 0.5);
  expect('pointed at a north edge', at(), [2, 0, 0, 'n']);
  choose({ at: null, held: false });
  location.hash = '#edge=2,0,0,e';
  readAddress();
  expect('an address of no edge', at(), null);
  location.hash = '#edge=2,0,0,n';
  readAddress();
  expect('an address', at(), [2, 0, 0, 'n']);
"#;

#[test]
fn the_page_knows_directions() {
    assert_eq!(interaction(&fs::read(DIRECTED).unwrap(), DIRECTIONS), "as expected");
}

#[test]
fn a_page_without_directions_says_nothing_of_them() {
    let steps = "expect('legend', byId('runs').hidden, true);
        expect('titles', [maps[0].figure, maps[1].figure].map((map) => map.querySelector('strong').textContent), ['Layer 1', 'Layer 2']);
        expect('figures', byId('figures').textContent.includes('limit of a layer'), false);";
    assert_eq!(interaction(&fs::read(EXAMPLE).unwrap(), steps), "as expected");
}

/// The page of the example with rings: net 1 drops edges 2, 4, 1 and 6 of six, and net 3 all of its four.
const DROPPED: &str = r#"
  const facts = (part) => Object.fromEntries([...document.querySelectorAll(`${part} dd`)].map((fact) => [fact.dataset.fact, fact.textContent]));
  expect('shown', [...document.querySelectorAll('.rings')].map((each) => each.hidden), [false, false]);
  expect('figures', byId('figures').textContent.endsWith(' · dropped edges 8'), true);
  expect('rings', facts('#cut'), { 'nets cut': '2', 'edges dropped': '8' });
  const cut = [...document.querySelectorAll('#cut-nets button')];
  expect('nets with rings', cut.map((each) => each.textContent), ['1', '3']);
  cut[1].click();
  expect('net 3', [state.net, facts('#net').edges, facts('#net')['dropped edges'], facts('#net')['on layers']], [3, '0', '4', 'none']);
  chooseNet(2);
  expect('net 2', [facts('#net').edges, facts('#net')['dropped edges']], ['3', '0']);
  choose({ at: { layer: 2, x: 1, y: 0, way: 'e' }, held: true });
  expect('an edge', [facts('#place').used, facts('#place')['dropped by nets']], ['1', '1, 3']);
  choose({ at: { layer: 1, x: 0, y: 0, way: 'n' } });
  expect('no track is used', [facts('#place').used, facts('#place').overflow, facts('#place')['dropped by nets']], ['0', '0', '1']);
  expect('label of a row', byId('row-0').getAttribute('aria-label'), 'net 1, 0 vias, 2 edges, 4 dropped');
  expect('colour', palette.dropped, '#8a6d00');
  choose({ at: null, held: false, net: 0 });
  const pixel = (map, x, y) => {
    const [a, b] = map.middle(x, y).map((place) => Math.round(place * map.scale));
    return [...map.canvas.getContext('2d').getImageData(a - 3, b - 3, 7, 7).data].some((value, place, all) => place % 4 === 0 && value === 0x8a && all[place + 1] === 0x6d && all[place + 2] === 0);
  };
  expect('on the map of vias alone', maps.map((map) => pixel(map, 0.5, 1)), [false, false, true]);
  chooseNet(1);
  expect('on every map, of the chosen net', maps.map((map) => pixel(map, 0.5, 1)), [true, true, true]);
"#;

#[test]
fn the_page_shows_dropped_edges() {
    assert_eq!(interaction(&fs::read(RINGS).unwrap(), DROPPED), "as expected");
    let steps = "expect('hidden', [...document.querySelectorAll('.rings')].map((each) => each.hidden), [true, true]);
        expect('figures', byId('figures').textContent.includes('dropped'), false);";
    assert_eq!(interaction(&fs::read(EXAMPLE).unwrap(), steps), "as expected");
}

/// The page of the example with wanted layers: nets 1 and 2 want layer 3, nets 3 and 5 layer 2 or 3.
const WANTED: &str = r#"
  const facts = (part) => Object.fromEntries([...document.querySelectorAll(`${part} dd`)].map((fact) => [fact.dataset.fact, fact.textContent]));
  const bad = (part) => [...document.querySelectorAll(`${part} .bad`)].map((fact) => fact.dataset.fact);
  expect('shown', [...document.querySelectorAll('.directives')].map((each) => each.hidden), [false, false, false]);
  expect('figures', byId('figures').textContent.endsWith(' · ldof 3'), true);
  expect('words of the layers', [1, 2, 3].map((layer) => maps[layer - 1].words().includes('▲')), [false, true, true]);
  expect('label', maps[2].canvas.getAttribute('aria-label').includes('2 with directive excess'), true);
  expect('wanted', facts('#wanted'), { 'low 2: 2 nets': '1 of 3 edges below', 'low 3: 2 nets': '5 of 6 edges below', ldof: '3' });
  const rows = [...document.querySelectorAll('#excess button')];
  expect('edges with excess', rows.map((row) => row.textContent), ['1,0 → 2,0excess 2 ▲', '0,0 → 1,0excess 1 ▲']);
  rows[1].click();
  expect('held', [at(), state.held], [[3, 0, 0, 'e'], true]);
  expect('facts of the edge', [facts('#place')['want a higher layer'], facts('#place')['directive excess']], ['0', '1 (layer 3)']);
  choose({ at: { layer: 1, x: 1, y: 0, way: 'e' } });
  expect('facts of layer 1', [facts('#place')['want a higher layer'], facts('#place')['directive excess']], ['2', '2 (layers 2, 3)']);
  expect('bad', bad('#place'), ['want a higher layer', 'directive excess']);
  chooseNet(1);
  expect('net 1', [facts('#net')['lowest wanted layer'], facts('#net')['edges below it'], bad('#net')], ['3', '3', ['edges below it']]);
  chooseNet(4);
  expect('net 4', [facts('#net')['lowest wanted layer'], facts('#net')['edges below it'], bad('#net')], ['1', '0', []]);
  expect('heads', document.querySelector('.list-head').lastChild.textContent, 'low');
  byId('sort').value = 'low';
  byId('sort').dispatchEvent(new Event('change'));
  expect('highest first', list.shown, [1, 2, 3, 5, 4, 6]);
  expect('cells', [...document.querySelectorAll('.net-row')].map((row) => row.lastChild.textContent), ['3', '3', '2', '2', '1', '1']);
  expect('label of a row', byId('row-0').getAttribute('aria-label'), 'net 1, 4 vias, 4 edges, wants layer 3 or higher');
  const box = maps[2].canvas.getBoundingClientRect();
  const [left, top] = maps[2].middle(1.5, 0);
  maps[2].canvas.dispatchEvent(new PointerEvent('pointermove', { clientX: box.left + left, clientY: box.top + top, bubbles: true }));
  expect('tip', byId('tip').textContent, 'Layer 3, 1,0 → 2,0: 1 of 1 used, excess 1 ▲');
  const wide = [...document.querySelectorAll('body, aside, .places, #place, #wanted, figure')].filter((each) => each.scrollWidth > each.clientWidth);
  expect('nothing is wider than its place', wide.map((each) => each.id || each.tagName), []);
"#;

#[test]
fn the_page_knows_wanted_layers() {
    assert_eq!(interaction(&fs::read(TIMING).unwrap(), WANTED), "as expected");
}

#[test]
fn a_page_without_wanted_layers_says_nothing_of_them() {
    let steps = "expect('hidden', [...document.querySelectorAll('.directives')].map((each) => each.hidden), [true, true, true]);
        expect('figures', byId('figures').textContent.includes('ldof'), false);
        expect('head', document.querySelector('.list-head').lastChild.textContent, 'turn');
        expect('sort', [...byId('sort').options].map((option) => option.value), ['net', 'vias', 'edges', 'turn']);
        choose({ at: { layer: 1, x: 0, y: 0, way: 'e' }, held: true });
        chooseNet(1);
        expect('facts', [...document.querySelectorAll('dd')].filter((fact) => /layer$|below|excess/.test(fact.dataset.fact)).length, 0);";
    assert_eq!(interaction(&fs::read(EXAMPLE).unwrap(), steps), "as expected");
}

#[test]
fn the_page_has_the_librarys_ldof() {
    for seed in [1, 5] {
        let job = with_lows(&drawn(seed, Some(Kind::Congested), Some(Damage::None)));
        let number = ldof(&library(&job).unwrap()).unwrap();
        let steps = format!(
            "expect('ldof', directives.ldof, {number});
            let [sum, marked] = [0, 0];
            for (let edge = 0; edge < EDGES; edge += 1) sum += excess(edge);
            expect('sum', sum, {number});
            for (let layer = 1; layer <= K; layer += 1) for (let edge = 0; edge < EDGES; edge += 1) marked += excessAt(layer, edge);
            expect('by layer', marked, {number});
            for (const row of document.querySelectorAll('#excess button')) {{
              row.click();
              expect('a place of the maps', carries(state.at.layer, state.at.way), true);
            }}"
        );
        assert_eq!(interaction(&job, &steps), "as expected", "seed {seed}");
    }
}

/// The page of a row of 64 tiles with eight layers: 65,535 tracks on each edge but the last, which all nets but one use.
const MANY_TRACKS: &str = r#"
  const facts = () => Object.fromEntries([...document.querySelectorAll('#place dd')].map((fact) => [fact.dataset.fact, fact.textContent]));
  choose({ at: { layer: 1, x: 0, y: 0, way: 'e' }, held: true });
  expect('capacity', [facts().capacity, facts().used, facts()['on all layers']], ['65,535', '1', '1 of 524,280']);
  choose({ at: { layer: 1, x: 62, y: 0, way: 'e' } });
  expect('overflow', [facts().capacity, facts().used, facts().overflow, facts()['on all layers']], ['10', '514', '504', '4,095 of 66']);
  const lines = (selector) => [...document.querySelectorAll(selector)].map((each) => each.offsetHeight < 40);
  for (const [selector, count] of [['#place dd', 6], ['#crowded button', 8], ['figcaption', 9]]) {
    expect(`one line each: ${selector}`, lines(selector), Array(count).fill(true));
  }
  const wide = [...document.querySelectorAll('body, aside, #crowded, #place, figure')].filter((each) => each.scrollWidth > each.clientWidth);
  expect('nothing is wider than its place', wide.map((each) => each.id || each.tagName), []);
  const box = maps[0].canvas.getBoundingClientRect();
  const point = (x) => {
    const [left, top] = maps[0].middle(x, 0);
    maps[0].canvas.dispatchEvent(new PointerEvent('pointermove', { clientX: box.left + left, clientY: box.top + top, bubbles: true }));
    return byId('tip').textContent;
  };
  expect('tip', point(0.5), 'Layer 1, 0,0 → 1,0: 1 of 65,535 used');
  expect('tip of overflow', point(62.5), 'Layer 1, 62,0 → 63,0: 514 of 10 used, overflow 504 ◆');
"#;

#[test]
fn many_tracks_and_nets_keep_to_their_places() {
    let layer = |last: usize| format!("east={}{last}\nnorth=\n", "65535,".repeat(62));
    let layers: String = [10, 8, 8, 8, 8, 8, 8, 8].map(layer).concat();
    let edges = |net: usize| if net == 1 { "0,0,e" } else { "62,0,e" };
    let pin = |net: usize| if net == 1 { "0,0,1" } else { "63,0,1" };
    let nets: String = (1..=4096).map(|net| format!("net={net}\npins={}\nedges={}\n", pin(net), edges(net))).collect();
    let job = format!("width=64\nheight=1\nlayers=8\nalpha=0\nbeta=0\ngamma=255\n{layers}nets=4096\n{nets}");
    assert_eq!(interaction(job.as_bytes(), MANY_TRACKS), "as expected");
}

#[test]
fn a_page_that_fails_says_so() {
    let folder = Folder::new();
    let page = drawn_page(&folder, &fs::read(EXAMPLE).unwrap());
    let broken = fs::read_to_string(&page).unwrap().replace("\"capacity\":", "\"c\":");
    let page = folder.file("broken.html", broken.as_bytes());
    let told = std::panic::catch_unwind(|| opened(&folder, &page, "")).unwrap_err();
    let told = told.downcast_ref::<String>().expect("a message");
    assert!(told.contains("reports an error"), "{told}");
}

#[test]
fn pages_and_pictures_are_painted() {
    let folder = Folder::new();
    let job = drawn(1, Some(Kind::Congested), Some(Damage::None));
    let (page, picture) = (drawn_page(&folder, &job), folder.path("a.svg"));
    assert_eq!(status(&run(["draw", folder.path("a.job").to_str().unwrap(), "-o", picture.to_str().unwrap()])), 0);
    for file in [page, picture] {
        let shot = folder.path("shot.png");
        browse(&folder, &format!("--screenshot={}", shot.display()), &file, "net=1");
        assert!(fs::metadata(&shot).unwrap().len() > 20_000, "an empty picture of {}", file.display());
        fs::remove_file(shot).unwrap();
    }
}
