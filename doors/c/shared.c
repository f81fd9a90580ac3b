/* One call of the shared object, as a first program in C would make it. */
#include <i_overlay_mesh.h>
#include <stdio.h>
#include <string.h>

int main(void)
{
    const char *request = "{\"op\":\"outline\",\"int\":\"i32\",\"out\":\"shapes\",\"paths\":[[[0,0],[100,0],[100,100]]],"
                          "\"style\":{\"outer\":10,\"inner\":10}}";
    uint8_t room[4096];
    size_t needed;
    mesh_outcome outcome = mesh_answer((const uint8_t *)request, strlen(request), room, sizeof room, &needed);
    if (outcome == MESH_ANSWERED)
        fwrite(room, 1, needed, stdout);
    return outcome;
}
