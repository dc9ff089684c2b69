// The page of `mscview page`: what it has besides the races, whose number it shows.
(() => {
  const byId = (id) => document.getElementById(id);
  const picture = byId('picture');
  const rows = byId('rows');

  const open = (race, isOpen) => {
    const details = race.querySelector('details');
    if (details && details.open !== isOpen) details.open = isOpen;
    race.classList.toggle('chosen', isOpen);
  };

  const races = new Races({
    frame: picture,
    picture: () => picture,
    list: byId('races'),
    search: byId('search'),
    shown: (race, before) => {
      if (before) open(before, false);
      byId('position').textContent = race ? races.all.indexOf(race) + 1 + ' of ' + races.all.length : '';
      if (race) open(race, true);
    },
  });

  const room = () => picture.scrollHeight - picture.clientHeight;

  const chooseByAddress = () => {
    const race = races.all.find((one) => '#' + one.id === location.hash);
    if (race) races.choose(race);
  };

  rows.addEventListener('input', () => {
    picture.scrollTop = (room() * Number(rows.value)) / 1000;
  });
  picture.addEventListener('scroll', () => {
    if (room() > 0) rows.value = String(Math.round((picture.scrollTop * 1000) / room()));
  });
  byId('next').addEventListener('click', () => races.step(1));
  byId('previous').addEventListener('click', () => races.step(-1));
  window.addEventListener('hashchange', chooseByAddress);

  byId('controls').hidden = false;
  document.body.classList.add('scripted');
  rows.parentElement.hidden = room() <= 0;
  chooseByAddress();
})();
