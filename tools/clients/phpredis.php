<?php
// The session of every client, with phpredis: its own calls for hashes, and rawCommand for what it has no call for.
$redis = new Redis();
$redis->connect('127.0.0.1', (int) $argv[1]);

function asked(string ...$words)
{
    global $redis;
    $redis->clearLastError();
    try {
        $reply = $redis->rawCommand(...$words);
    } catch (RedisException $fault) {
        return $fault->getMessage(); // of a refusal that does not begin with ERR
    }
    return $redis->getLastError() ?? ($reply === true ? 'OK' : $reply);
}

echo 'version ', phpversion('redis'), "\n";
asked('FT.DROPINDEX', 'clientcheck', 'DD');
echo 'ping ', $redis->ping() === true ? 'PONG' : 'nothing', "\n";
$schema = ['name', 'TEXT', 'brand', 'TAG', 'price', 'NUMERIC', 'SORTABLE'];
echo 'create ', asked('FT.CREATE', 'clientcheck', 'PREFIX', '1', 'clientcheck:', 'SCHEMA', ...$schema), "\n";
$redis->multi(Redis::PIPELINE);
foreach ([['Red shoe', 'Acme', 79], ['Beach shoe', 'Zenit', 25], ['Trail shoe', 'Acme', 95]] as $at => $shoe) {
    $redis->rawCommand('HSET', 'clientcheck:' . ($at + 1), 'name', $shoe[0], 'brand', $shoe[1], 'price', $shoe[2]);
}
echo 'hset ', implode(' ', $redis->exec()), "\n";
echo 'hget ', $redis->hGet('clientcheck:1', 'name'), "\n";
$found = asked('FT.SEARCH', 'clientcheck', 'shoe @price:[20 80]', 'SORTBY', 'price', 'RETURN', '2', 'name', 'price');
echo 'search ', array_shift($found);
foreach (array_chunk($found, 2) as [$key, $fields]) {
    echo " | $key $fields[1] $fields[3]";
}
$steps = ['GROUPBY', '1', '@brand', 'REDUCE', 'COUNT', '0', 'AS', 'count', 'SORTBY', '2', '@count', 'DESC'];
$rows = array_slice(asked('FT.AGGREGATE', 'clientcheck', '*', ...$steps), 1);
echo "\naggregate ", implode(' | ', array_map(fn ($row) => "$row[1] $row[3]", $rows)), "\n";
[$rows, $id] = asked('FT.AGGREGATE', 'clientcheck', '*', 'LOAD', '1', 'name', 'WITHCURSOR', 'COUNT', '2');
$parts = [$rows];
while ($id !== 0) {
    [$rows, $id] = asked('FT.CURSOR', 'READ', 'clientcheck', (string) $id);
    $parts[] = $rows;
}
$names = fn ($rows) => implode(', ', array_map(fn ($row) => $row[1], array_slice($rows, 1)));
echo 'cursor ', implode(' | ', array_map($names, $parts)), "\n";
$info = asked('FT.INFO', 'clientcheck');
echo "info $info[1], ", $info[array_search('num_docs', $info, true) + 1], " documents\n";
$redis->multi()->hSet('clientcheck:4', 'name', 'Green shoe')->hGet('clientcheck:4', 'name')->del('clientcheck:4');
echo 'transaction ', implode(' ', $redis->exec()), "\n";
$spoilt = [asked('MULTI'), asked('NOPE'), asked('DEL', 'clientcheck:1'), asked('EXEC')];
echo "spoilt $spoilt[3]\n";
echo 'refused ', asked('FT.SEARCH', 'missing', 'shoe'), "\n";
echo 'unknown ', asked('CLIENT', 'SETNAME', 'x'), "\n";
echo 'drop ', asked('FT.DROPINDEX', 'clientcheck', 'DD'), "\n";
echo 'left ', $redis->exists(['clientcheck:1', 'clientcheck:2', 'clientcheck:3']), "\n";
$redis->close();
