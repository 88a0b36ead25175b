'use strict';

// The data of the page, and the elements that the script fills.
const run = JSON.parse(document.getElementById('run').textContent);
const by_id = (id) => document.getElementById(id);
const main = by_id('view'), picture = by_id('picture'), room = by_id('room'), overview = by_id('overview');
