// Sends each request to the store of its NMI, which is in the path or the query.
//     node route.mjs PORT STORE_PORT...
import http from 'node:http';

const [port, ...stores] = process.argv.slice(2).map(Number);

http.createServer((request, response) => {
  const url = new URL(request.url, 'http://x');
  const nmi = url.searchParams.get('nmi') ?? url.pathname.split('/')[3] ?? '';
  const place = '0123456789ABCDEFGHIJKLMNOPQRSTUVWXYZ'.indexOf(nmi.slice(-1));
  const target = { host: '127.0.0.1', port: stores[place % stores.length], method: request.method, path: request.url, headers: request.headers };
  const forward = http.request(target, (answer) => {
    response.writeHead(answer.statusCode, answer.headers);
    answer.pipe(response);
  });
  forward.on('error', () => response.writeHead(502).end());
  request.pipe(forward);
}).listen(port, '127.0.0.1');
