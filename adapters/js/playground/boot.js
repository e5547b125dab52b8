'use strict';
// The first script of the page: unpacks the other one, which the policy of the page knows by its sum, and runs it.

const { inflated } = require('./inflated');

async function boot() {
  const script = document.createElement('script');
  script.textContent = await inflated(document.getElementById('script').textContent).text();
  document.body.append(script);
}

boot().catch(({ message }) => {
  document.getElementById('status').textContent = `This browser can't run the playground: ${message}`;
});
