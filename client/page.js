(function () {
  const svg = document.querySelector('svg.dispute');
  const live = document.getElementById('marked');
  const rest = live ? live.textContent : '';
  const STANDS = { h: 'held', s: 'held by some', o: 'attacked', u: '' };

  function all(query, root) { return Array.from((root || document).querySelectorAll(query)); }
  function words(element, key) { const value = element.getAttribute(key); return value ? value.split(' ') : []; }
  function say(text) { if (live) live.textContent = text; }
  function label(n) { const element = document.getElementById('name-' + n); return element ? element.textContent : n; }
  function withText(n) {
    const element = document.getElementById('text-' + n);
    return label(n) + (element && element.textContent ? ': ' + element.textContent : '');
  }

  function clear() {
    all('.on').forEach(element => element.classList.remove('on', 'cant'));
    all('.cited').forEach(element => element.classList.remove('cited'));
    all('.names').forEach(element => element.classList.remove('names'));
    if (svg) svg.classList.remove('dim');
    say(rest);
  }

  // Marks what a sentence speaks of, and the paragraphs that it cites.
  function mark(element) {
    clear();
    const numbers = words(element, 'data-a'), pairs = words(element, 'data-e'), out = words(element, 'data-x');
    if (svg && numbers.length) {
      svg.classList.add('dim');
      all('.node', svg).filter(node => numbers.includes(node.dataset.n)).forEach(node => {
        node.classList.add('on');
        node.classList.toggle('cant', out.includes(node.dataset.n));
      });
      all('.edge', svg).filter(edge => words(edge, 'data-e').some(pair => pairs.includes(pair)))
        .forEach(edge => edge.classList.add('on'));
    }
    words(element, 'data-p').forEach(number => {
      const cited = document.getElementById('p' + number);
      if (cited) cited.classList.add('cited');
    });
    if (numbers.length) say('Marked: ' + numbers.map(label).join(', ') + '.');
  }

  // Marks the sentences that name an argument.
  function told(n) {
    clear();
    all('li.s').filter(li => words(li, 'data-a').includes(n)).forEach(li => li.classList.add('names'));
    all('.node').filter(node => node.dataset.n === n).forEach(node => node.classList.add('on'));
    say(withText(n));
  }

  // Colours the picture by one set, or by all.
  function show(button) {
    const view = +button.dataset.v;
    all('.views button').forEach(other => other.setAttribute('aria-pressed', other === button));
    all('.node').forEach(node => {
      node.classList.remove('h', 's', 'o', 'u');
      node.classList.add(node.dataset.s.charAt(view));
    });
    all('td[data-s]').forEach(cell => { cell.textContent = STANDS[cell.dataset.s.charAt(view)]; });
  }

  all('li.s, [data-rest]').forEach(element => {
    element.addEventListener('mouseover', event => {
      event.stopPropagation();
      mark(element);
      const named = event.target.closest('b[data-n]');
      if (named) say(withText(named.dataset.n));
    });
    element.addEventListener('focusin', event => { event.stopPropagation(); mark(element); });
    element.addEventListener('mouseleave', clear);
    element.addEventListener('focusout', clear);
  });
  all('.node').forEach(node => {
    ['mouseenter', 'focus'].forEach(name => node.addEventListener(name, () => told(node.dataset.n)));
    ['mouseleave', 'blur'].forEach(name => node.addEventListener(name, clear));
  });
  all('.views button').forEach(button => button.addEventListener('click', () => show(button)));
  addEventListener('beforeprint', () => all('details').forEach(details => { details.open = true; }));
})();
