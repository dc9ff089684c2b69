'use strict';
// What a page of races does with what is in it: it shows a race at a time, and marks its events in a picture. It reads numbers
// alone out of the page, makes no markup, and asks for nothing.
//
// A race is an element of a list, with the id rI-R-F: the number of its instance, that of its receive, and that of the first
// of its earlier events. data-last has the last of these, data-before of each line how many first events have to come before
// the receive, and data-also the others of its own line that have to.
class Races {
  // frame: the element that the picture scrolls in. picture: gives the element that has the picture. list: the element whose
  // children are the races. search: the box for what is looked for. shown: is called with the race that is shown now, or null, and
  // the one before.
  constructor({ frame, picture, list, search, shown }) {
    Object.assign(this, { frame, picture, list, search, shown, chosen: null, marked: [], hits: [], lastHit: -1 });
    list.addEventListener('click', (event) => this.chooseListed(event));
    frame.addEventListener('click', (event) => this.chooseInPicture(event));
    search.addEventListener('input', () => this.find());
    search.addEventListener('keydown', (event) => {
      if (event.key === 'Enter') this.nextHit();
      if (event.key === 'Escape') search.blur();
    });
    document.addEventListener('keydown', (event) => this.press(event));
  }

  get all() { return Array.from(this.list.children); }

  // The numbers in a race's id: its instance, its receive and the first of its earlier events.
  numbersOf(race) { return race.id.slice(1).split('-').map(Number); }

  listOf(race, name) { return (race.dataset[name] || '').split(' ').filter(Boolean).map(Number); }

  drawn(id) {
    const picture = this.picture();
    return picture && picture.querySelector('#' + id);
  }

  mark(id, how) {
    const element = this.drawn(id);
    if (!element) return;
    element.classList.add(how);
    this.marked.push([element, how]);
  }

  // Marks of the race that is chosen the receive, the earlier events that it may come before, and all that has to come
  // before it.
  markChosen() {
    for (const [element, how] of this.marked) element.classList.remove(how);
    this.marked = [];
    const race = this.chosen;
    if (!race) return;
    const [instance, receive, first] = this.numbersOf(race);
    const last = Number(race.dataset.last);
    this.listOf(race, 'before').forEach((count, place) => {
      for (let number = 1; number <= count; number += 1) this.mark('e' + (place + 1) + '-' + number, 'before');
    });
    for (const number of this.listOf(race, 'also')) this.mark('e' + instance + '-' + number, 'before');
    for (let number = first; number <= last; number += 1) this.mark('e' + instance + '-' + number, 'earlier');
    this.mark('e' + instance + '-' + receive, 'receive');
    this.mark('b' + race.id.slice(1), 'bracket');
  }

  // Puts the middle of an element of the picture into the middle of what is seen of it.
  reveal(element) {
    if (!element) return;
    const place = element.getBoundingClientRect();
    const seen = this.frame.getBoundingClientRect();
    this.frame.scrollTop += place.top + place.height / 2 - seen.top - seen.height / 2;
    this.frame.scrollLeft += place.left + place.width / 2 - seen.left - seen.width / 2;
  }

  // Shows a race, or none.
  choose(race) {
    if (this.chosen === race) return;
    const before = this.chosen;
    this.chosen = race;
    this.markChosen();
    this.shown(race, before);
    if (!race) return;
    const [instance, receive] = this.numbersOf(race);
    this.reveal(this.drawn('e' + instance + '-' + receive));
    race.scrollIntoView({ block: 'nearest' });
  }

  chooseListed(event) {
    if (!event.target.closest('summary, p, td')) return;
    const race = this.all.find((one) => one.contains(event.target));
    if (!race) return;
    event.preventDefault();
    this.choose(this.chosen === race ? null : race);
  }

  chooseInPicture(event) {
    const element = event.composedPath()[0].closest('g[id^=e], g[id^=r], path[id^=b]');
    if (!element) return;
    const [instance, number] = element.id.slice(1).split('-').map(Number);
    const race = this.all.find((one) => one.id === 'r' + element.id.slice(1));
    if (race) this.choose(race);
    else this.chooseEvent(instance, number);
  }

  // The races of an event, one after another: those of which it is the receive, or else those that it is an earlier event of.
  chooseEvent(instance, number) {
    const own = this.all.map((race) => [race, this.numbersOf(race)]).filter(([, numbers]) => numbers[0] === instance);
    const received = own.filter(([, numbers]) => numbers[1] === number);
    const passed = own.filter(([race, numbers]) => numbers[2] <= number && number <= Number(race.dataset.last));
    const those = (received.length > 0 ? received : passed).map(([race]) => race);
    if (those.length > 0) this.choose(those[(those.indexOf(this.chosen) + 1) % those.length]);
  }

  // Goes to the next race that is listed, or to the one before, round the ends.
  step(by) {
    const listed = this.all.filter((race) => !race.hidden);
    if (listed.length === 0) return;
    const place = listed.indexOf(this.chosen);
    const start = place < 0 && by < 0 ? 0 : place;
    this.choose(listed[(start + by + listed.length) % listed.length]);
  }

  // Lists the races whose words have the text, and marks the labels of the picture that have it.
  find() {
    const text = this.search.value.trim().toLowerCase();
    for (const label of this.hits) label.classList.remove('hit');
    for (const race of this.all) {
      const words = (race.querySelector('summary, p') || race).textContent.toLowerCase();
      race.hidden = text !== '' && !words.includes(text);
    }
    const picture = this.picture();
    const labels = text === '' || !picture ? [] : Array.from(picture.querySelectorAll('text'));
    this.hits = labels.filter((label) => label.textContent.toLowerCase().includes(text));
    for (const label of this.hits) label.classList.add('hit');
    this.lastHit = -1;
    if (this.chosen && this.chosen.hidden) this.choose(null);
  }

  nextHit() {
    if (this.hits.length === 0) return;
    this.lastHit = (this.lastHit + 1) % this.hits.length;
    this.reveal(this.hits[this.lastHit]);
  }

  press(event) {
    if (event.ctrlKey || event.altKey || event.metaKey) return;
    if (event.target.closest && event.target.closest('input, textarea, select')) return;
    if (event.key === 'n' || event.key === 'j') this.step(1);
    else if (event.key === 'p' || event.key === 'k') this.step(-1);
    else if (event.key === 'Escape') this.choose(null);
    else if (event.key === '/') this.search.focus();
    else return;
    event.preventDefault();
  }
}
