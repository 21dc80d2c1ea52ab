'use strict';

/** A promise that is kept after so many milliseconds. */
const pause = (time) => new Promise((done) => { setTimeout(done, time); });

module.exports = { pause };
