"""What PostgreSQL, the referee, has of named databases, and every statement that is asked of it. Keepers, the store, trails and commands
ask here; nothing here knows of them.

    schema      its tables; `rows` is what they know, `batches` makes values of a statement of it
    referee     every statement: who holds a database, what is archived; the longer ones are in `statements`, `refusal` says what an
                error means, `errors` has what can go wrong, and `hosts` waits for a server
    bases       images of pages; `ahead` reads the next piece while one is loaded
    fate        what became of a run
    through     reads old blocks where they are objects, as `object_statements` say
    sealed      how tables of principals lie there
    ways        how a service is reached by TLS, as columns have it
"""
