// The session of every client, with node-redis: its own calls for hashes and its search module, `client.ft`.
const { createClient } = require('redis');

const refusal = async (asked) => {
  try {
    return `nothing, and answers ${await asked()}`;
  } catch (fault) {
    return fault.message;
  }
};

const main = async () => {
  const socket = { host: '127.0.0.1', port: Number(process.argv[2]), reconnectStrategy: false };
  const client = createClient({ socket });
  client.on('error', (fault) => console.log('connection', fault.message));
  await client.connect();
  const { ft } = client;
  console.log('version', require('redis/package.json').version);
  await refusal(() => ft.dropIndex('clientcheck', { DD: true }));
  console.log('ping', await client.ping());
  const schema = { name: 'TEXT', brand: 'TAG', price: { type: 'NUMERIC', SORTABLE: true } };
  console.log('create', await ft.create('clientcheck', schema, { ON: 'HASH', PREFIX: 'clientcheck:' }));
  console.log('hset', ...await Promise.all([
    client.hSet('clientcheck:1', { name: 'Red shoe', brand: 'Acme', price: '79' }),
    client.hSet('clientcheck:2', { name: 'Beach shoe', brand: 'Zenit', price: '25' }),
    client.hSet('clientcheck:3', { name: 'Trail shoe', brand: 'Acme', price: '95' }),
  ]));
  console.log('hget', await client.hGet('clientcheck:1', 'name'));
  const options = { SORTBY: 'price', RETURN: ['name', 'price'], LIMIT: { from: 0, size: 5 }, DIALECT: 2 };
  const found = await ft.search('clientcheck', 'shoe @price:[20 80]', options);
  const shoes = found.documents.map(({ id, value }) => `${id} ${value.name} ${value.price}`);
  console.log('search', [found.total, ...shoes].join(' | '));
  const groups = await ft.aggregate('clientcheck', '*', {
    STEPS: [
      { type: 'GROUPBY', properties: '@brand', REDUCE: { type: 'COUNT', AS: 'count' } },
      { type: 'SORTBY', BY: { BY: '@count', DIRECTION: 'DESC' } },
    ],
  });
  console.log('aggregate', groups.results.map(({ brand, count }) => `${brand} ${count}`).join(' | '));
  let part = await ft.aggregateWithCursor('clientcheck', '*', { LOAD: '@name', COUNT: 2 });
  const parts = [part];
  while (Number(part.cursor)) {
    part = await ft.cursorRead('clientcheck', part.cursor);
    parts.push(part);
  }
  console.log('cursor', parts.map(({ results }) => results.map(({ name }) => name).join(', ')).join(' | '));
  // ft.info() expects all fields of RediSearch's reply; here there are seven.
  const info = await client.sendCommand(['FT.INFO', 'clientcheck']);
  console.log(`info ${info[1]}, ${info[info.indexOf('num_docs') + 1]} documents`);
  const block = client.multi().hSet('clientcheck:4', 'name', 'Green shoe').hGet('clientcheck:4', 'name').del('clientcheck:4');
  console.log('transaction', ...await block.exec());
  let spoilt; // multi().exec() rejects with the first refusal
  for (const words of [['MULTI'], ['NOPE'], ['DEL', 'clientcheck:1'], ['EXEC']]) spoilt = await refusal(() => client.sendCommand(words));
  console.log('spoilt', spoilt);
  console.log('refused', await refusal(() => ft.search('missing', 'shoe')));
  console.log('unknown', await refusal(() => client.sendCommand(['CLIENT', 'SETNAME', 'x'])));
  console.log('drop', await ft.dropIndex('clientcheck', { DD: true }));
  console.log('left', await client.exists(['clientcheck:1', 'clientcheck:2', 'clientcheck:3']));
  await client.quit();
};

main().catch((fault) => {
  console.log('ended by', fault.message);
  process.exit(1);
});
