# The session of every client, with redis-rb: its own calls for hashes, and `call` for what it has no call for.
require 'redis'

def refusal
  "nothing, and answers #{yield}"
rescue Redis::CommandError => e
  e.message
end

redis = Redis.new(port: Integer(ARGV[0]))
puts "version #{Redis::VERSION}"
refusal { redis.call('FT.DROPINDEX', 'clientcheck', 'DD') }
puts "ping #{redis.ping}"
schema = %w[name TEXT brand TAG price NUMERIC SORTABLE]
puts "create #{redis.call('FT.CREATE', 'clientcheck', 'PREFIX', '1', 'clientcheck:', 'SCHEMA', *schema)}"
shoes = [['Red shoe', 'Acme', 79], ['Beach shoe', 'Zenit', 25], ['Trail shoe', 'Acme', 95]]
added = redis.pipelined do |pipeline|
  shoes.each.with_index(1) do |(name, brand, price), number|
    pipeline.hset("clientcheck:#{number}", 'name', name, 'brand', brand, 'price', price)
  end
end
puts "hset #{added.join(' ')}"
puts "hget #{redis.hget('clientcheck:1', 'name')}"
options = %w[SORTBY price RETURN 2 name price]
total, *found = redis.call('FT.SEARCH', 'clientcheck', 'shoe @price:[20 80]', *options)
puts ["search #{total}", *found.each_slice(2).map { |key, fields| "#{key} #{fields[1]} #{fields[3]}" }].join(' | ')
steps = %w[GROUPBY 1 @brand REDUCE COUNT 0 AS count SORTBY 2 @count DESC]
rows = redis.call('FT.AGGREGATE', 'clientcheck', '*', *steps).drop(1)
puts "aggregate #{rows.map { |row| "#{row[1]} #{row[3]}" }.join(' | ')}"
rows, id = redis.call('FT.AGGREGATE', 'clientcheck', '*', 'LOAD', '1', 'name', 'WITHCURSOR', 'COUNT', '2')
parts = [rows]
until id.zero?
  rows, id = redis.call('FT.CURSOR', 'READ', 'clientcheck', id)
  parts << rows
end
puts "cursor #{parts.map { |part| part.drop(1).map { |row| row[1] }.join(', ') }.join(' | ')}"
info = Hash[*redis.call('FT.INFO', 'clientcheck')]
puts "info #{info['index_name']}, #{info['num_docs']} documents"
block = redis.multi do |transaction|
  transaction.hset('clientcheck:4', 'name', 'Green shoe')
  transaction.hget('clientcheck:4', 'name')
  transaction.del('clientcheck:4')
end
puts "transaction #{block.join(' ')}"
spoilt = ['MULTI', 'NOPE', 'DEL clientcheck:1', 'EXEC'].map { |line| refusal { redis.call(*line.split) } }
puts "spoilt #{spoilt.last}"
puts "refused #{refusal { redis.call('FT.SEARCH', 'missing', 'shoe') }}"
puts "unknown #{refusal { redis.call('CLIENT', 'SETNAME', 'x') }}"
puts "drop #{redis.call('FT.DROPINDEX', 'clientcheck', 'DD')}"
puts "left #{redis.exists('clientcheck:1', 'clientcheck:2', 'clientcheck:3')}"
redis.close
