// Shows the pictures, and tells how many came, and by which protocol the browser says that all came.
const loads = [];
for (let place = 1; place <= 50; place++) {
  const picture = document.createElement('img');
  loads.push(new Promise((done) => { picture.onload = () => done(1); picture.onerror = () => done(0); }));
  picture.src = `pictures/${place}.svg`;
  document.getElementById('pictures').append(picture);
}
const came = (await Promise.all(loads)).reduce((sum, one) => sum + one, 0);
const entries = [...performance.getEntriesByType('navigation'), ...performance.getEntriesByType('resource')];
const protocols = [...new Set(entries.map((entry) => entry.nextHopProtocol))];
document.getElementById('said').textContent = `${came} of 50 pictures came; ${entries.length} files, all by ${protocols.join(' and ')}.`;
