/*
 * The rules of the session table a second time, on top of model.h. include/smb3seal.h says what the five functions take; its two
 * structs are all that this shares with the library.
 */
#ifndef TABLE_MODEL_H
#define TABLE_MODEL_H

#include "../include/smb3seal.h"

size_t model_table_find(const struct smb3seal_session *table, size_t table_len, uint64_t session_id);
uint32_t model_table_add(struct smb3seal_session *table, size_t table_len, struct smb3seal_connection connection, uint64_t session_id,
                         uint32_t guest, uint32_t anonymous, const uint8_t *material, size_t material_len, const uint8_t *chain,
                         size_t chain_len);
uint32_t model_table_remove(struct smb3seal_session *table, size_t table_len, uint64_t session_id);
uint32_t model_table_seal(struct smb3seal_session *table, size_t table_len, struct smb3seal_connection connection,
                          uint64_t session_id, uint8_t *message, size_t message_len, uint64_t *headers);
uint32_t model_table_open(const struct smb3seal_session *table, size_t table_len, struct smb3seal_connection connection,
                          uint8_t *message, size_t message_len, uint64_t *headers);

#endif
