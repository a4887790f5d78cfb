<?php
interface I { const
A = 1; }
