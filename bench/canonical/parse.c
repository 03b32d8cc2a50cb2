/* parse FILE: libyaml's parser on a file; prints how many events it gives.  cc -O2 -o parse parse.c -lyaml */
#include <stdio.h>
#include <stdlib.h>
#include <yaml.h>

int main(int count, char **words) {
    yaml_parser_t parser;
    yaml_event_t event;
    yaml_event_type_t type;
    long events = 0;
    FILE *file = count == 2 ? fopen(words[1], "rb") : NULL;
    if (!file || !yaml_parser_initialize(&parser)) return 2;
    yaml_parser_set_input_file(&parser, file);
    do {
        if (!yaml_parser_parse(&parser, &event)) return 1;
        type = event.type;
        events++;
        yaml_event_delete(&event);
    } while (type != YAML_STREAM_END_EVENT);
    yaml_parser_delete(&parser);
    fclose(file);
    printf("%ld\n", events);
    return 0;
}
