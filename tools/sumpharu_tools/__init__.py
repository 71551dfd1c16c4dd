"""The tools of Sumpharu: for who runs a Kafka cluster, and in `dev` for who changes this repository."""
