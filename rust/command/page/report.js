'use strict';
(() => {
  const data = JSON.parse(document.getElementById('data').textContent);
  const table = document.getElementById('grid');
  const body = table.tBodies[0];
  const told = document.getElementById('told');
  const asTold = told.innerHTML;
  let marked = [];
  let current = null;

  // The cells: they hold what the library gave, and are only looked up here.
  const cellAt = (record, field) => body.rows[record].cells[data.fields.indexOf(field) + 1];
  const placeOf = cell => [cell.parentNode.sectionRowIndex, data.fields[cell.cellIndex - 1]];
  // A line ends behind the last cell of a row, and a browser takes its break for text of the cell.
  const textOf = cell => cell.textContent.trim();
  const isGap = cell => textOf(cell) === '-';
  const valueOf = cell => parseInt(textOf(cell), 10);
  const isReference = field => data.fields.indexOf(field) < data.references;
  // A record and a field as the grid heads them: with their names, where they have some.
  const recordOf = record => {
    const label = textOf(body.rows[record].cells[0]).slice(`${record}`.length).trim();
    return label ? `${label} (record ${record})` : `record ${record}`;
  };
  const fieldOf = field => textOf(table.tHead.rows[0].cells[data.fields.indexOf(field) + 1]);
  const words = cell => isGap(cell) ? 'unfilled'
    : valueOf(cell) + (textOf(cell).endsWith('~') ? ', worked out' : ', measured');

  const element = (name, text, parent, className) => {
    const made = document.createElement(name);
    if (text) made.textContent = text;
    if (className) made.className = className;
    parent.append(made);
    return made;
  };

  // The records of a path: the first is the record itself, the others are listed.
  const hopsOf = (chain, record) => {
    chain.split ??= chain.paths.split(';');
    return [record, ...chain.split[record].split(',').filter(Boolean).map(Number)];
  };

  const showPath = (chain, record, parent) => {
    const hops = hopsOf(chain, record);
    const list = element('ol', '', parent);
    hops.forEach((at, hop) => {
      const field = chain.letters[hop];
      const cell = cellAt(at, field);
      marked.push(cell);
      cell.classList.add('path');
      element('li', `${fieldOf(field)} of ${recordOf(at)}: ${words(cell)}`, list);
    });
    const last = cellAt(hops.at(-1), chain.letters[hops.length - 1]);
    element('p', isGap(last) ? 'unfilled: the last cell above is the gap' : `is ${valueOf(last)}`, parent, 'quiet');
  };

  const showRule = (rule, record) => {
    const line = element('p', `${rule.remote ? 'remote rule' : 'rule'} of step ${rule.step}: `, told, 'rule');
    element('code', rule.text, line);
    for (const number of rule.remote ? [] : rule.chains) {
      element('code', data.chains[number].chain, element('p', '', told, 'chain'));
      showPath(data.chains[number], record, told);
    }
  };

  const clear = () => {
    marked.forEach(cell => cell.classList.remove('path'));
    marked = [];
  };

  const show = cell => {
    clear();
    told.replaceChildren();
    const [record, field] = placeOf(cell);
    element('h3', `${fieldOf(field)} of ${recordOf(record)}`, told);
    const before = data.before[`${field}${record}`];
    element('p', words(cell) + (before === undefined ? '' : `; before the run: ${before === '-' ? 'unfilled' : before}`), told);
    if (isReference(field) && !isGap(cell)) element('p', `leads to ${recordOf(valueOf(cell))}; Enter goes there`, told, 'quiet');
    data.rules.filter(rule => rule.field === field).forEach(rule => showRule(rule, record));
    if (data.followed && isReference(field)) {
      element('p', `following ${fieldOf(field)} from here:`, told, 'chain');
      showPath(data.chains[data.fields.indexOf(field)], record, told);
    }
    marked.push(cell);
    cell.classList.add('path');
  };

  const focus = cell => {
    if (!cell) return;
    if (current) current.tabIndex = -1;
    current = cell;
    cell.tabIndex = 0;
    cell.focus();
    cell.scrollIntoView({ block: 'nearest', inline: 'nearest' });
  };

  // The cell so many visible rows down and so many columns to the right.
  const moved = (cell, down, right) => {
    let row = cell.parentNode;
    for (let left = Math.abs(down); left > 0; left -= 1) {
      let next = row;
      do next = down > 0 ? next.nextElementSibling : next.previousElementSibling;
      while (next && next.offsetParent === null);
      if (!next) break;
      row = next;
    }
    const column = Math.min(Math.max(cell.cellIndex + right, 1), row.cells.length - 1);
    return row.cells[column];
  };

  const keys = {
    ArrowDown: cell => moved(cell, 1, 0), ArrowUp: cell => moved(cell, -1, 0),
    ArrowRight: cell => moved(cell, 0, 1), ArrowLeft: cell => moved(cell, 0, -1),
    PageDown: cell => moved(cell, 20, 0), PageUp: cell => moved(cell, -20, 0),
    Home: cell => moved(cell, 0, -99), End: cell => moved(cell, 0, 99),
    Enter: cell => isReference(placeOf(cell)[1]) && !isGap(cell) ? body.rows[valueOf(cell)].cells[cell.cellIndex] : null,
  };

  const cellOf = event => event.target.closest('#grid td');
  table.addEventListener('mouseover', event => { const cell = cellOf(event); if (cell) show(cell); });
  table.addEventListener('mouseleave', () => {
    if (current && current === document.activeElement) show(current);
    else { clear(); told.innerHTML = asTold; }
  });
  table.addEventListener('focusin', event => { const cell = cellOf(event); if (cell) show(cell); });
  table.addEventListener('click', event => focus(cellOf(event)));
  table.addEventListener('keydown', event => {
    const cell = cellOf(event);
    if (!cell || !keys[event.key] || event.ctrlKey || event.altKey || event.metaKey) return;
    event.preventDefault();
    focus(keys[event.key](cell));
  });
  const first = body.rows[0] && body.rows[0].cells[1];
  if (first) { first.tabIndex = 0; current = first; }

  const goTo = place => {
    const [, field, record] = place.match(/^([A-Z])(\d+)$/) || [];
    if (!field || !data.fields.includes(field) || !body.rows[record]) return;
    table.dataset.show = 'all';
    document.getElementById('show').value = 'all';
    focus(cellAt(record, field));
  };
  document.addEventListener('click', event => {
    const button = event.target.closest('button[data-cell]');
    if (button) goTo(button.dataset.cell);
  });
  document.getElementById('show').addEventListener('change', event => { table.dataset.show = event.target.value; });
  document.getElementById('go').addEventListener('submit', event => {
    event.preventDefault();
    goTo(`${data.fields[0]}${event.target.elements.record.value}`);
  });

  for (const figure of document.querySelectorAll('figure.plan[data-exchanges]')) {
    const range = figure.querySelector('input');
    const output = figure.querySelector('output');
    const step = by => { range.value = Number(range.value) + by; update(); };
    const update = () => {
      const round = Number(range.value);
      output.textContent = `${round} of ${range.max}`;
      for (const group of figure.querySelectorAll('g[data-round]')) {
        const of = Number(group.dataset.round);
        group.classList.toggle('later', of > round);
        group.classList.toggle('earlier', of < round && round < Number(range.max));
      }
    };
    range.addEventListener('input', update);
    figure.querySelector('.previous').addEventListener('click', () => step(-1));
    figure.querySelector('.next').addEventListener('click', () => step(1));
    update();
  }

  addEventListener('beforeprint', () => document.querySelectorAll('details').forEach(one => { one.open = true; }));
  addEventListener('hashchange', () => goTo(location.hash.slice(1)));
  goTo(location.hash.slice(1));
  document.documentElement.dataset.ready = 'yes';
})();
