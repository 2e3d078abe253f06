/* Seals a message as a client would, and opens it as its server would. */
#include <smb3seal.h>
#include <smb3seal_text.h>
#include <stdio.h>

int main(void)
{
    const uint8_t session_key[16] = {1, 2, 3};          /* from the authentication */
    const uint8_t chain[SMB3SEAL_CHAIN_BYTES] = {4, 5}; /* what smb3seal_fold made of negotiate and session setup */
    struct smb3seal_connection connection = {
        .dialect = SMB3SEAL_DIALECT_311, .cipher = SMB3SEAL_CIPHER_AES_128_GCM, .role = SMB3SEAL_CLIENT, .encryption = 1};
    struct smb3seal_session at_client[1] = {{0}}, at_server[16] = {{0}}; /* a table is zero bytes at first */
    uint64_t headers = 0;

    /* 52 bytes of room, then an ECHO request (command 13) of session 7 */
    uint8_t message[52 + 68] = {[52] = 0xFE, 'S', 'M', 'B', [56] = 64, [64] = 13, [92] = 7, [116] = 4};

    uint32_t answer = smb3seal_table_add(at_client, 1, connection, 7, 0, 0, session_key, sizeof session_key, chain, sizeof chain);
    if (answer == SMB3SEAL_DONE) answer = smb3seal_table_seal(at_client, 1, connection, 7, message, sizeof message, &headers);
    printf("sealed: %s, begins %02X %02X %02X %02X\n", smb3seal_text(answer), message[0], message[1], message[2], message[3]);

    /* the server's part: another table, the same session */
    connection.role = SMB3SEAL_SERVER;
    answer = smb3seal_table_add(at_server, 16, connection, 7, 0, 0, session_key, sizeof session_key, chain, sizeof chain);
    if (answer == SMB3SEAL_DONE) answer = smb3seal_table_open(at_server, 16, connection, message, sizeof message, &headers);
    printf("opened: %s, headers %d, command %d\n", smb3seal_text(answer), (int)headers, message[64]);
    return answer == SMB3SEAL_DONE ? 0 : 1;
}
