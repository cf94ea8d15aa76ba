/* The calls of the header that give values, over the proved one, which takes no null pointer: a room of length 0 points to what is here,
 * which nobody reads or writes. */
#include "heap.h"
#include "yamlcanon.h"

uint32_t yaml_c_values(const uint8_t *input, size_t n, yamlcanon_value *values, size_t values_cap, uint32_t *parts, size_t parts_cap,
                       uint8_t *texts, size_t texts_cap, yamlcanon_lengths *lengths, yamlcanon_fault *fault);

uint32_t yamlcanon_values(const uint8_t *input, size_t n, const yamlcanon_rooms *rooms, yamlcanon_lengths *lengths, yamlcanon_fault *fault)
{
    static yamlcanon_value value;
    static uint32_t part;
    static uint8_t byte;
    return yaml_c_values(n ? input : &byte, n, rooms->values_cap ? rooms->values : &value, rooms->values_cap,
                         rooms->parts_cap ? rooms->parts : &part, rooms->parts_cap, rooms->texts_cap ? rooms->texts : &byte,
                         rooms->texts_cap, lengths, fault);
}

uint32_t yamlcanon_values_within(const uint8_t *input, size_t n, const yamlcanon_rooms *rooms, yamlcanon_lengths *lengths,
                                 yamlcanon_fault *fault, size_t memory)
{
    size_t before = yaml_c_bound(memory);
    uint32_t status = yamlcanon_values(input, n, rooms, lengths, fault);
    yaml_c_unbound(before);
    return status;
}
