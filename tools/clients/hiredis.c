/* The session of every client, with hiredis. */
#include <hiredis/hiredis.h>
#include <stdio.h>
#include <stdlib.h>
#include <string.h>

static redisReply *part(redisReply *reply, size_t at) {
  if (reply->type == REDIS_REPLY_ARRAY && at < reply->elements)
    return reply->element[at];
  printf("a reply without part %zu\n", at);
  exit(1);
}

static void show_found(redisReply *found) {
  printf("search %lld", part(found, 0)->integer);
  for (size_t at = 1; at + 1 < found->elements; at += 2) {
    redisReply *fields = part(found, at + 1);
    printf(" | %s %s %s", part(found, at)->str, part(fields, 1)->str, part(fields, 3)->str);
  }
  puts("");
}

static void show_groups(redisReply *rows) {
  printf("aggregate ");
  for (size_t at = 1; at < rows->elements; at++)
    printf("%s%s %s", at > 1 ? " | " : "", part(part(rows, at), 1)->str, part(part(rows, at), 3)->str);
  puts("");
}

static long long show_read(redisReply *read) {
  redisReply *rows = part(read, 0);
  for (size_t at = 1; at < rows->elements; at++)
    printf("%s%s", at > 1 ? ", " : "", part(part(rows, at), 1)->str);
  return part(read, 1)->integer;
}

static void show_info(redisReply *info) {
  for (size_t at = 0; at + 1 < info->elements; at += 2)
    if (strcmp(part(info, at)->str, "num_docs") == 0)
      printf("info %s, %lld documents\n", part(info, 1)->str, part(info, at + 1)->integer);
}

int main(int count, char **words) {
  redisContext *c = redisConnect("127.0.0.1", atoi(words[count - 1]));
  if (c->err) {
    printf("no connection: %s\n", c->errstr);
    return 1;
  }
  printf("version %d.%d.%d\n", HIREDIS_MAJOR, HIREDIS_MINOR, HIREDIS_PATCH);
#define ASK(...) ((redisReply *)redisCommand(c, __VA_ARGS__))
  ASK("FT.DROPINDEX clientcheck DD");
  printf("ping %s\n", ASK("PING")->str);
  redisReply *created = ASK("FT.CREATE clientcheck PREFIX 1 clientcheck: "
                            "SCHEMA name TEXT brand TAG price NUMERIC SORTABLE");
  printf("create %s\n", created->str);
  redisAppendCommand(c, "HSET clientcheck:1 name %s brand Acme price %d", "Red shoe", 79);
  redisAppendCommand(c, "HSET clientcheck:2 name %s brand Zenit price %d", "Beach shoe", 25);
  redisAppendCommand(c, "HSET clientcheck:3 name %s brand Acme price %d", "Trail shoe", 95);
  printf("hset");
  for (int i = 0; i < 3; i++) {
    redisReply *reply;
    if (redisGetReply(c, (void **)&reply) != REDIS_OK)
      return 1;
    printf(" %lld", reply->integer);
  }
  printf("\nhget %s\n", ASK("HGET clientcheck:1 name")->str);
  show_found(ASK("FT.SEARCH clientcheck %s SORTBY price RETURN 2 name price", "shoe @price:[20 80]"));
  show_groups(ASK("FT.AGGREGATE clientcheck * GROUPBY 1 @brand REDUCE COUNT 0 AS count SORTBY 2 @count DESC"));
  printf("cursor ");
  long long id = show_read(ASK("FT.AGGREGATE clientcheck * LOAD 1 name WITHCURSOR COUNT 2"));
  while (id != 0) {
    printf(" | ");
    id = show_read(ASK("FT.CURSOR READ clientcheck %lld", id));
  }
  puts("");
  show_info(ASK("FT.INFO clientcheck"));
  ASK("MULTI");
  ASK("HSET clientcheck:4 name %s", "Green shoe");
  ASK("HGET clientcheck:4 name");
  ASK("DEL clientcheck:4");
  redisReply *block = ASK("EXEC");
  printf("transaction %lld %s %lld\n", part(block, 0)->integer, part(block, 1)->str, part(block, 2)->integer);
  ASK("MULTI");
  ASK("NOPE");
  ASK("DEL clientcheck:1");
  printf("spoilt %s\n", ASK("EXEC")->str);
  printf("refused %s\n", ASK("FT.SEARCH missing shoe")->str);
  printf("unknown %s\n", ASK("CLIENT SETNAME x")->str);
  printf("drop %s\n", ASK("FT.DROPINDEX clientcheck DD")->str);
  printf("left %lld\n", ASK("EXISTS clientcheck:1 clientcheck:2 clientcheck:3")->integer);
  return 0;
}
